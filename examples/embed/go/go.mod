module coshalit.example/embed

go 1.19

require coshalit.example/coshalit v1.0.0

replace coshalit.example/coshalit => ../../../bindings/go
