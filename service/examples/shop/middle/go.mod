module middle

go 1.19

require hindsight v0.0.0

replace hindsight => ../../../bindings/go
