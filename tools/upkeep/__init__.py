"""What writes generated parts of documents, and measures."""
