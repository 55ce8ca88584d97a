module mode

go 1.18

require aclck v1.0.0

replace aclck => ../../bindings/go
