module weoldrin.example/weoldrin

go 1.19
