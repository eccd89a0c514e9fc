package shapes;

import java.util.*;
import static java.lang.Math.PI;

/** Shapes, and their areas. */
public sealed interface Shape permits Circle, Square {
    double area();

    @Deprecated(since = "2", forRemoval = true)
    default <T extends Comparable<T>> Map<String, List<List<T>>> tables(int shift, T... values) throws Exception {
        Map<String, List<List<T>>> tables = new HashMap<>();
        int mask = shift >> 2 >>> 1, i = 0;
        for (T value : values)
            if (value != null)
                if (i++ > mask) break;
                else tables.computeIfAbsent("k" + i, k -> new ArrayList<>()).add(List.of(value));
        long[] sums = {1L, (long) 2.5e3f, (int) +1, 0x1F};
        Runnable run = () -> { System.out.println((Object) sums.length + "\u0041\n"); };
        Comparator<? super T> order = (a, b) -> a.compareTo(b) < 0 ? -1 : 1;
        String kind = switch (sums[0] instanceof Number ? 1 : 2) {
            case 1, 2 -> "small";
            default -> { yield """
                a "long" text
                """; }
        };
        try (var in = open(kind)) {
            in.read();
        } catch (RuntimeException | Error e) {
            throw new Exception(e);
        }
        return tables;
    }
}

record Circle(double radius) implements Shape {
    public double area() { return PI * radius * radius; }
}

record Square(double side) implements Shape {
    public double area() { return side * side; }
}
