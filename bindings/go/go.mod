// README.md says what the licence is.
module aclck

go 1.18
