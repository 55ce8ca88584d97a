"""The program `aclck-probe`: asks the system whether it answers by the lists of objects for everybody."""
