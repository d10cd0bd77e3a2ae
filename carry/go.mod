module rewind/carry

go 1.19
