"""The output of the program's words as JSON documents, whose schemas are in docs/schema/, and the same documents as text."""
