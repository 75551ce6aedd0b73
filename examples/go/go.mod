module zoftemar.example/layered

go 1.19
