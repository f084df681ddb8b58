module gaz

go 1.19
