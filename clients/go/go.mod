module rudzkvano

go 1.19
