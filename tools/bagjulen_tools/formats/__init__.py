"""The texts that the tools read and write: scenes, reports, bundles, packs, objects, rows."""
