"""How documents are written: their words, sentences and lines, beside docs/inside/STYLE.md."""
