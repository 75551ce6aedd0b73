module zoftemar.example/rate

go 1.19
