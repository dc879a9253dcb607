module engine

go 1.19

require relkvanu v0.0.0

replace relkvanu => ../../bindings/go
