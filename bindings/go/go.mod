module plistconv

go 1.17
