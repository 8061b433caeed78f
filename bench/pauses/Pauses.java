// The work `pauses` of crates/bench_heaps in Java: workers that keep orders below a directory, and replace one with each transaction, in rounds with a rest before each.
// java -Xms.. -Xmx.. -Xlog:..:LOG Pauses CELLS LIVE WORKERS TRANSACTIONS WARM. So many transactions of each worker come before, so that they are compiled. It
// tells when the others began, so that the pauses before are left out of the log.
import java.lang.management.ManagementFactory;
import java.nio.ByteBuffer;
import java.nio.ByteOrder;
import java.nio.LongBuffer;
import java.util.Arrays;
import java.util.function.Consumer;

public class Pauses {
    static final class Node {
        Node a, b, c, d;
        int value;

        Node(int value) {
            this.value = value;
        }

        Node get(int k) {
            return k == 0 ? a : k == 1 ? b : k == 2 ? c : d;
        }

        void set(int k, Node to) {
            if (k == 0) a = to;
            else if (k == 1) b = to;
            else if (k == 2) c = to;
            else d = to;
        }
    }

    static Node order(int number) {
        Node order = new Node(number), line = null;
        for (int k = 0; k < 5; k++) {
            Node item = new Node(number), made = new Node(number);
            made.a = line;
            made.b = item;
            line = made;
        }
        order.a = line;
        Node tree = new Node(number);
        for (int k = 0; k < 4; k++) tree.set(k, new Node(number));
        order.b = tree;
        return order;
    }

    static Node lowest(Node at, int order, int levels) {
        for (int level = levels - 1; level > 0; level--) {
            int way = (order >> (2 * level)) & 3;
            if (at.get(way) == null) at.set(way, new Node(0));
            at = at.get(way);
        }
        return at;
    }

    static long look(Node directory, int at, int levels) {
        Node order = lowest(directory, at, levels).get(at & 3);
        long sum = order.value;
        for (Node line = order.a; line != null; line = line.a) sum += line.value + line.b.value;
        sum += order.b.value;
        for (int k = 0; k < 4; k++) sum += order.b.get(k).value;
        return sum;
    }

    static final class Worker {
        Node directory = new Node(0);
        int orders, transactions, made, levels = 1;
        long number, sum;
        LongBuffer times;

        void replace(int at, int value) {
            Node made = order(value);
            lowest(directory, at, levels).set(at & 3, made);
        }

        void fill() {
            while (orders >> (2 * levels) != 0) levels++;
            for (int at = 0; at < orders; at++) replace(at, at);
        }

        static long next(long x) {
            x ^= x << 13;
            x ^= x >>> 7;
            return x ^ x << 17;
        }

        int choose() {
            number = next(number);
            return (int) ((number >>> 20) % orders);
        }

        // Room for the nanoseconds of so many transactions, outside the heap.
        void begin(int count) {
            transactions = count;
            made = 0;
            times = ByteBuffer.allocateDirect(8 * count + 8).order(ByteOrder.nativeOrder()).asLongBuffer();
        }

        // A round: transactions until all are made or its time is over.
        void churn() {
            long began = System.nanoTime(), before = began;
            while (made < transactions && before - began < ROUND) {
                replace(choose(), made);
                sum += look(directory, choose(), levels);
                long now = System.nanoTime();
                times.put(made++, now - before);
                before = now;
            }
        }
    }

    static final long ROUND = 600_000_000L, REST = 100;

    // All transactions: the nanoseconds that they took.
    static long play(Worker[] workers) throws InterruptedException {
        long took = 0;
        while (Arrays.stream(workers).anyMatch(it -> it.made < it.transactions)) {
            Thread.sleep(REST);
            long start = System.nanoTime();
            all(workers, Worker::churn);
            took += System.nanoTime() - start;
        }
        return took;
    }

    static void all(Worker[] workers, Consumer<Worker> part) throws InterruptedException {
        Thread[] threads = new Thread[workers.length];
        for (int k = 0; k < threads.length; k++) {
            Worker worker = workers[k];
            threads[k] = new Thread(() -> part.accept(worker));
            threads[k].start();
        }
        for (Thread thread : threads) thread.join();
    }

    public static void main(String[] words) throws InterruptedException {
        long cells = Long.parseLong(words[0]), live = Long.parseLong(words[1]);
        int k = Integer.parseInt(words[2]), transactions = Integer.parseInt(words[3]);
        Worker[] workers = new Worker[k];
        for (int i = 0; i < k; i++) {
            workers[i] = new Worker();
            workers[i].orders = (int) (cells * live / 100 / k * 3 / 49);
            workers[i].number = 88172645463325252L + i;
        }
        all(workers, Worker::fill);
        int warm = Integer.parseInt(words[4]);
        for (Worker worker : workers) worker.begin(warm);
        play(workers);
        for (int i = 0; i < k; i++) workers[i].begin(transactions / k + (i < transactions % k ? 1 : 0));
        System.out.println("began " + ManagementFactory.getRuntimeMXBean().getUptime());
        long took = Math.max(1, play(workers) / 1000);
        System.out.println("ended " + ManagementFactory.getRuntimeMXBean().getUptime());
        System.out.println("microseconds " + took + " rate " + transactions * 1000000L / took);
        tell(workers, transactions);
    }

    // It sorts in the heap, after all is measured.
    static void tell(Worker[] workers, int transactions) {
        long[] times = new long[transactions];
        int at = 0;
        for (Worker worker : workers) {
            worker.directory = null;
            worker.times.get(0, times, at, worker.transactions);
            at += worker.transactions;
        }
        Arrays.sort(times);
        System.out.println("latency p50 " + part(times, 5000) + " p99 " + part(times, 9900) + " p999 " + part(times, 9990) + " slowest " + part(times, 10000));
    }

    static long part(long[] times, long of) {
        return times[(int) Math.min(times.length - 1, times.length * of / 10000)];
    }
}
