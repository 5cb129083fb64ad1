"""What client and server say to each other: lines, connections, requests."""
