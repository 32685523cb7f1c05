module shop.example/controller

go 1.19

require nazhuvem.example/nazhuvem v0.0.0

replace nazhuvem.example/nazhuvem => ../../../clients/go
