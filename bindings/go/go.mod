module coshalit.example/coshalit

go 1.19
