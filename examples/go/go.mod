module canonical

go 1.17

require plistconv v0.0.0

replace plistconv => ../../bindings/go
