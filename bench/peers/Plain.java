// The interpreter of objects.hpp in Java, over Java's own collector: the same text, for scripts whose objects have four fields, as all of the bench's.
// Plain FILE run WORDS... appends to the file what the play took: microseconds by the clock and of all processors, and kilobytes at most in memory.
import java.io.IOException;
import java.io.PrintStream;
import java.lang.management.ManagementFactory;
import java.nio.charset.StandardCharsets;
import java.nio.file.Files;
import java.nio.file.Path;
import java.nio.file.StandardOpenOption;
import java.util.ArrayList;
import java.util.Comparator;
import java.util.HashMap;
import java.util.List;
import java.util.Map;

final class Plain {
    // An object: its section, its number there, its value, and its fields.
    static final class Cell {
        final int section, number;
        int value;
        boolean reached;
        final Cell[] fields = new Cell[4];

        Cell(int section, int number, int value) {
            this.section = section;
            this.number = number;
            this.value = value;
        }
    }

    enum Op { NEW, LET, NIL, SET, GET, CAT, PUT, SAY, SUM, COLLECT }

    // A command: variables v and w, field i, a value or a limit n, and its label.
    record Command(Op op, int v, int w, int i, int n, String label) {}

    // Commands that are done so many times.
    record Block(int times, List<Command> body) {}

    // Its names, and what it does in each season.
    static final class Section {
        final Map<String, Integer> names = new HashMap<>();
        final List<List<Block>> parts = new ArrayList<>(List.of(new ArrayList<>()));

        int variable(String name) { return names.computeIfAbsent(name, unknown -> names.size()); }

        List<Block> last() { return parts.get(parts.size() - 1); }
    }

    // What a section has, and what it came to.
    static final class Player {
        final Cell[] variables = new Cell[32];
        final List<String> said = new ArrayList<>();
        int made, dropped;
    }

    final List<Section> sections = new ArrayList<>(List.of(new Section()));
    final List<Player> players = new ArrayList<>();

    Command command(Section in, String[] words) {
        Op op = Op.valueOf(words[0].toUpperCase());
        return switch (op) {
            case NEW, PUT -> new Command(op, in.variable(words[1]), 0, 0, Integer.parseUnsignedInt(words[2]), "");
            case LET -> new Command(op, in.variable(words[1]), in.variable(words[2]), 0, 0, "");
            case NIL -> new Command(op, in.variable(words[1]), 0, 0, 0, "");
            case SET -> new Command(op, in.variable(words[1]), in.variable(words[3]), Integer.parseInt(words[2]), 0, "");
            case GET -> new Command(op, in.variable(words[1]), in.variable(words[2]), Integer.parseInt(words[3]), 0, "");
            case CAT -> new Command(op, in.variable(words[1]), sections.get(0).variable(words[2]), 0, 0, "");
            case SAY -> new Command(op, in.variable(words[2]), 0, 0, 0, words[1]);
            case SUM -> new Command(op, in.variable(words[2]), 0, Integer.parseInt(words[3]), Integer.parseInt(words[4]), words[1]);
            case COLLECT -> new Command(op, 0, 0, 0, 0, "");
        };
    }

    // A line of a section. Between repeats the commands of a part stand in blocks that are done once.
    void line(String[] words) {
        Section in = sections.get(sections.size() - 1);
        switch (words[0]) {
            case "gcscript", "catalogue" -> {}
            case "fields" -> {
                if (!words[1].equals("4")) throw new IllegalArgumentException("objects have four fields here");
            }
            case "warehouse" -> sections.add(new Section());
            case "season" -> in.parts.add(new ArrayList<>());
            case "repeat" -> in.last().add(new Block(Integer.parseInt(words[1]), new ArrayList<>()));
            case "end" -> in.last().add(new Block(1, new ArrayList<>()));
            default -> {
                if (in.last().isEmpty()) in.last().add(new Block(1, new ArrayList<>()));
                in.last().get(in.last().size() - 1).body().add(command(in, words));
            }
        }
    }

    Plain(String source) {
        for (String line : source.split("\n")) {
            String[] words = line.strip().split(" +");
            if (!words[0].isEmpty() && words[0].charAt(0) != '#') line(words);
        }
        for (Section ignored : sections) players.add(new Player());
    }

    // The object of a variable if it may be stored into: a store is dropped if the object is the catalogue's.
    static Cell own(int k, Player at, int v) {
        Cell cell = at.variables[v];
        if (cell != null && cell.section != k) {
            at.dropped++;
            return null;
        }
        return cell;
    }

    static String walk(Command c, Cell cell) {
        int count = 0;
        long total = 0;
        for (; cell != null && count < c.n; count++) {
            total += Integer.toUnsignedLong(cell.value);
            cell = cell.fields[c.i];
        }
        return c.label + " " + count + " " + total;
    }

    void play(int k, Player at, Command c) {
        Cell[] variables = at.variables;
        switch (c.op) {
            case NEW -> variables[c.v] = new Cell(k, at.made++, c.n);
            case LET -> variables[c.v] = variables[c.w];
            case NIL -> variables[c.v] = null;
            case SET -> {
                Cell cell = own(k, at, c.v);
                if (cell != null) cell.fields[c.i] = variables[c.w];
            }
            case PUT -> {
                Cell cell = own(k, at, c.v);
                if (cell != null) cell.value = c.n;
            }
            case GET -> variables[c.v] = variables[c.w] == null ? null : variables[c.w].fields[c.i];
            case CAT -> variables[c.v] = players.get(0).variables[c.w];
            case SAY -> at.said.add(c.label + " " + (variables[c.v] == null ? "nil" : Integer.toUnsignedString(variables[c.v].value)));
            case SUM -> at.said.add(walk(c, variables[c.v]));
            case COLLECT -> System.gc();
        }
    }

    void part(int k, int season) {
        Section section = sections.get(k);
        if (season >= section.parts.size()) return;
        for (Block block : section.parts.get(season)) {
            Command[] body = block.body().toArray(new Command[0]);
            for (int time = 0; time < block.times(); time++) {
                for (Command c : body) play(k, players.get(k), c);
            }
        }
    }

    // The catalogue's part and then the warehouses', each worker its share.
    void season(int season, int workers) throws InterruptedException {
        part(0, season);
        List<Thread> threads = new ArrayList<>();
        for (int w = 0; w < workers; w++) {
            int first = w + 1;
            Thread thread = new Thread(() -> {
                for (int k = first; k < players.size(); k += workers) part(k, season);
            });
            threads.add(thread);
            thread.start();
        }
        for (Thread thread : threads) thread.join();
    }

    static void reach(List<Cell> found, Cell cell) {
        if (cell == null || cell.reached) return;
        cell.reached = true;
        found.add(cell);
    }

    List<Cell> survivors() {
        List<Cell> found = new ArrayList<>();
        for (Player player : players) {
            for (Cell cell : player.variables) reach(found, cell);
        }
        for (int at = 0; at < found.size(); at++) {
            for (Cell cell : found.get(at).fields) reach(found, cell);
        }
        found.sort(Comparator.<Cell>comparingInt(cell -> cell.section).thenComparingInt(cell -> cell.number));
        return found;
    }

    void write(StringBuilder text) {
        for (int k = 1; k < players.size(); k++) {
            text.append("warehouse ").append(k).append('\n');
            for (String line : players.get(k).said) text.append(line).append('\n');
            text.append("dropped ").append(players.get(k).dropped).append('\n');
        }
        List<Cell> found = survivors();
        text.append("survivors ").append(found.size()).append('\n');
        for (Cell cell : found) text.append(cell.section).append(' ').append(cell.number).append(' ').append(Integer.toUnsignedString(cell.value)).append('\n');
    }

    // One play of a script: its text.
    static StringBuilder text(String source, int workers) throws InterruptedException {
        Plain plain = new Plain(source);
        int seasons = plain.sections.stream().mapToInt(section -> section.parts.size()).max().orElse(1);
        for (int season = 0; season < seasons; season++) plain.season(season, workers);
        StringBuilder text = new StringBuilder();
        plain.write(text);
        return text;
    }

    // The greatest number of kilobytes in memory, as the system tells it.
    static long kilobytes() throws IOException {
        return Files.lines(Path.of("/proc/self/status")).filter(line -> line.startsWith("VmHWM")).mapToLong(line -> Long.parseLong(line.replaceAll("[^0-9]", ""))).sum();
    }

    // The script is played so many times before, so that it is compiled; then so many plays are measured, since the time of processors is told in
    // hundredths of a second, and the last is written.
    static final int WARM = 10, MEASURED = 10;

    public static void main(String[] words) throws IOException, InterruptedException {
        int workers = 4;
        for (int k = 0; k + 1 < words.length; k++) {
            if (words[k].equals("--workers")) workers = Integer.parseInt(words[k + 1]);
        }
        String source = new String(System.in.readAllBytes(), StandardCharsets.UTF_8);
        for (int k = 0; k < WARM; k++) text(source, workers);
        var system = (com.sun.management.OperatingSystemMXBean) ManagementFactory.getOperatingSystemMXBean();
        long processors = system.getProcessCpuTime(), clock = System.nanoTime();
        StringBuilder text = new StringBuilder();
        for (int k = 0; k < MEASURED; k++) text = text(source, workers);
        clock = System.nanoTime() - clock;
        processors = system.getProcessCpuTime() - processors;
        String told = clock / 1000 / MEASURED + " " + processors / 1000 / MEASURED + " " + kilobytes() + "\n";
        Files.writeString(Path.of(words[0]), told, StandardOpenOption.CREATE, StandardOpenOption.APPEND);
        PrintStream out = new PrintStream(System.out, false, StandardCharsets.UTF_8);
        out.print(text);
        out.flush();
    }
}
