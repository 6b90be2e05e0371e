// java.util.concurrent's ConcurrentSkipListMap, which a user might take instead of OakMap, on the workloads of
// crates/rounds: the same keys in the same order, the same values, and the same bytes of them read. It prints what
// that program prints, which has to be the same text.
//
// usage: java Peers.java WORK KEYS ROUNDS THREADS BYTES
//
// The work is done again and again for half a second before that which is measured, so that it is compiled by then. A
// value is an array of its own, which a put or an addition makes, as the map keeps what it was given.

import java.lang.invoke.MethodHandles;
import java.lang.invoke.VarHandle;
import java.nio.ByteOrder;
import java.util.Arrays;
import java.util.Collection;
import java.util.Set;
import java.util.concurrent.ConcurrentSkipListMap;

public class Peers {
    private static final long WARMING_NANOSECONDS = 500_000_000;
    private static final Set<String> WORKS = Set.of("add", "ingest", "get", "over", "up", "down");
    private static final byte[] ONE = {0, 0, 0, 0, 0, 0, 0, 1};
    private static final VarHandle NUMBER =
            MethodHandles.byteArrayViewVarHandle(long[].class, ByteOrder.BIG_ENDIAN);

    private record Key(byte[] bytes) implements Comparable<Key> {
        static Key of(long number) {
            byte[] bytes = new byte[8];
            NUMBER.set(bytes, 0, number * 2654435761L % 1000003);
            return new Key(bytes);
        }

        static Key ofCounter(int state) {
            int counter = state / 64;
            return new Key(new byte[] {(byte) (counter >> 8), (byte) counter});
        }

        @Override
        public int compareTo(Key other) {
            return Arrays.compareUnsigned(bytes, other.bytes);
        }
    }

    /** How many calls went through, and what they read. */
    private static final class Told {
        long calls;
        long sum;

        void then(long number) {
            calls++;
            sum = sum * 31 + number;
        }

        void with(Told others) {
            calls += others.calls;
            sum += others.sum;
        }

        void print(String what) {
            System.out.println(calls + " " + what + ", sum " + Long.toUnsignedString(sum));
        }
    }

    private record Asked(String work, int keys, int rounds, int threads, int bytes) {}

    /** One thread's share of the work. */
    private static final class Worker extends Thread {
        private final ConcurrentSkipListMap<Key, byte[]> map;
        private final Asked asked;
        private final int number;
        private final byte[] value;
        private int state;
        final Told told = new Told();

        Worker(ConcurrentSkipListMap<Key, byte[]> map, Asked asked, int number) {
            this.map = map;
            this.asked = asked;
            this.number = number;
            this.state = number;
            this.value = new byte[asked.bytes];
            Arrays.fill(value, (byte) 'v');
        }

        @Override
        public void run() {
            for (int round = 0; round < asked.rounds; round++) {
                told.with(goRound(round));
            }
        }

        private Told goRound(int round) {
            Told told = new Told();
            switch (asked.work) {
                case "add" -> add(told);
                case "ingest" -> put(0, told);
                case "over" -> put(round + 1, told);
                case "get" -> {
                    int from = number * (asked.keys / asked.threads);
                    get(from, asked.keys, told);
                    Told rest = new Told();
                    get(0, from, rest);
                    told.with(rest);
                }
                case "up" -> scan(map.values(), told);
                default -> scan(map.descendingMap().values(), told);
            }
            return told;
        }

        private void add(Told told) {
            for (int call = 0; call < asked.keys; call++) {
                state = (25173 * state + 13849) % 65536;
                map.merge(Key.ofCounter(state), ONE, (had, one) -> {
                    byte[] sum = new byte[8];
                    NUMBER.set(sum, 0, (long) NUMBER.get(had, 0) + 1);
                    return sum;
                });
                told.then(0);
            }
        }

        private void put(long more, Told told) {
            for (int key = number; key < asked.keys; key += asked.threads) {
                byte[] put = value.clone();
                NUMBER.set(put, 0, key + more);
                map.put(Key.of(key), put);
                told.then(0);
            }
        }

        private void get(int from, int to, Told told) {
            for (int key = from; key < to; key++) {
                byte[] found = map.get(Key.of(key));
                if (found != null) {
                    told.then(sumOf(found));
                }
            }
        }

        private static int sumOf(byte[] value) {
            int sum = 0;
            for (byte one : value) {
                sum += one & 255;
            }
            return sum;
        }

        static void scan(Collection<byte[]> values, Told told) {
            for (byte[] value : values) {
                told.then((long) NUMBER.get(value, 0));
            }
        }
    }

    private final Told work = new Told();
    private final Told content = new Told();
    private long nanoseconds;

    /** Does the work on one map. */
    private void measureMap(Asked asked) throws InterruptedException {
        var map = new ConcurrentSkipListMap<Key, byte[]>();
        if (!asked.work.equals("add") && !asked.work.equals("ingest")) {
            new Worker(map, new Asked("ingest", asked.keys, 1, 1, asked.bytes), 0).run();
        }
        var workers = new Worker[asked.threads];
        for (int number = 0; number < workers.length; number++) {
            workers[number] = new Worker(map, asked, number);
        }
        long begin = System.nanoTime();
        for (Worker worker : workers) {
            worker.start();
        }
        for (Worker worker : workers) {
            worker.join();
        }
        nanoseconds += System.nanoTime() - begin;
        for (Worker worker : workers) {
            work.with(worker.told);
        }
        var all = new Told();
        Worker.scan(map.values(), all);
        content.with(all);
    }

    /** Does what is asked for, each round of new keys on a map of its own. */
    private static Peers measure(Asked asked) throws InterruptedException {
        var measured = new Peers();
        if (asked.work.equals("ingest")) {
            var once = new Asked(asked.work, asked.keys, 1, asked.threads, asked.bytes);
            for (int round = 0; round < asked.rounds; round++) {
                measured.measureMap(once);
            }
        } else {
            measured.measureMap(asked);
        }
        return measured;
    }

    private static Asked askedBy(String[] words) {
        if (words.length != 5 || !WORKS.contains(words[0])) {
            return null;
        }
        int[] counts = new int[4];
        for (int at = 0; at < counts.length; at++) {
            if (!words[at + 1].matches("[1-9][0-9]{0,5}")) {
                return null;
            }
            counts[at] = Integer.parseInt(words[at + 1]);
        }
        return counts[3] < 8 ? null : new Asked(words[0], counts[0], counts[1], counts[2], counts[3]);
    }

    public static void main(String[] words) throws InterruptedException {
        Asked asked = askedBy(words);
        if (asked == null) {
            System.err.println("usage: Peers add|ingest|get|over|up|down KEYS ROUNDS THREADS BYTES");
            System.exit(2);
        }
        long begin = System.nanoTime();
        while (System.nanoTime() - begin < WARMING_NANOSECONDS) {
            measure(asked);
        }
        Peers measured = measure(asked);
        measured.work.print("calls");
        measured.content.print("keys");
        System.err.println(measured.nanoseconds + " ns");
    }
}
