"""Parts of tools/verify. Each test gives back what is wrong, or an empty text."""
