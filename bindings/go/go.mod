module picky-der.example/pickyder

go 1.19
