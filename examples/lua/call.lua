a = f
(g).x(1)
