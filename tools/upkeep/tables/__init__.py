"""The tables of documents that are made of other tables, so that each fact has one place."""
