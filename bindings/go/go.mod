module durskeyl

go 1.19
