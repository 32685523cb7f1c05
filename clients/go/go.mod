module nazhuvem.example/nazhuvem

go 1.19
