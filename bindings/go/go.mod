module cpe

go 1.19
