"""The program `aclck-form`: reads a list in one form, and writes it in another."""
