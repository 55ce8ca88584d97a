"""`aclck-probe --server`: asks a server of NFSv4.0 whether it answers by the lists that it is given."""
