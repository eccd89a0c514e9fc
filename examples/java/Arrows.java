class A { List<List<B>> a = b >> c; }
