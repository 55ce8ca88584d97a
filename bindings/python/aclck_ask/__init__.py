"""The program `aclck-ask`: answers questions about one or two lists."""
