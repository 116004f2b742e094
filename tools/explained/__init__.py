"""What `why` writes, and pictures of it."""
