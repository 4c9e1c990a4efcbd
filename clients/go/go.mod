module urbd.example/urbd

go 1.19
