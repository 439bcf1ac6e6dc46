module dasd

go 1.19
