import java.io.IOException;
import java.lang.management.ManagementFactory;
import java.lang.management.ThreadMXBean;
import java.nio.ByteBuffer;
import java.nio.ByteOrder;
import java.nio.file.Files;
import java.nio.file.Path;
import java.time.DayOfWeek;
import java.time.Instant;
import java.time.LocalDateTime;
import java.time.LocalTime;
import java.time.Month;
import java.time.ZoneId;
import java.time.ZoneOffset;
import java.time.zone.ZoneOffsetTransition;
import java.time.zone.ZoneOffsetTransitionRule;
import java.time.zone.ZoneOffsetTransitionRule.TimeDefinition;
import java.time.zone.ZoneRules;
import java.util.ArrayList;
import java.util.Arrays;
import java.util.LinkedHashMap;
import java.util.List;
import java.util.Map;

/**
 * java.time: ZoneRules.getOffset(Instant) and getValidOffsets(LocalDateTime), by the tz database of the JDK. What a driver
 * prints and writes is said in common.h.
 */
public class Zones {
    static final int CHECKED = 100_000;
    static final int PASSES = 8;
    static final ThreadMXBean THREADS = ManagementFactory.getThreadMXBean();
    static long sink;

    interface Call {
        long at(int i);
    }

    /** The processor's time of this thread, in nanoseconds: not that of the compiler and of the garbage collector. */
    static long now() {
        return THREADS.getCurrentThreadCpuTime();
    }

    /** What reading the clock itself takes. */
    static long clockCost() {
        long least = Long.MAX_VALUE;
        for (int i = 0; i < 100_000; i++) {
            long start = now();
            least = Math.min(least, now() - start);
        }
        return least;
    }

    static long[] seconds(Path path) throws IOException {
        ByteBuffer bytes = ByteBuffer.wrap(Files.readAllBytes(path)).order(ByteOrder.LITTLE_ENDIAN);
        long[] read = new long[bytes.remaining() / 8];
        bytes.asLongBuffer().get(read);
        return read;
    }

    static ZoneRules ofText() {
        ZoneOffset standard = ZoneOffset.ofHours(-5), daylight = ZoneOffset.ofHours(-4);
        LocalTime two = LocalTime.of(2, 0);
        var start = ZoneOffsetTransitionRule.of(Month.MARCH, 8, DayOfWeek.SUNDAY, two, false, TimeDefinition.WALL, standard,
                standard, daylight);
        var end = ZoneOffsetTransitionRule.of(Month.NOVEMBER, 1, DayOfWeek.SUNDAY, two, false, TimeDefinition.WALL, standard,
                daylight, standard);
        // Without a transition the rules are not asked, so the list has those of 1899.
        return ZoneRules.of(standard, standard, List.of(), List.of(start.createTransition(1899), end.createTransition(1899)),
                List.of(start, end));
    }

    /** An hour forward and back by turns, as in the file that make_inputs.py writes. */
    static ZoneRules made(int count, long step) {
        ZoneOffset winter = ZoneOffset.UTC, summer = ZoneOffset.ofHours(1);
        long start = LocalDateTime.of(1900, 1, 1, 0, 0).toEpochSecond(ZoneOffset.UTC);
        List<ZoneOffsetTransition> list = new ArrayList<>();
        for (int i = 0; i < count; i++) {
            ZoneOffset before = i % 2 == 0 ? winter : summer, after = i % 2 == 0 ? summer : winter;
            list.add(ZoneOffsetTransition.of(LocalDateTime.ofEpochSecond(start + step * i, 0, before), before, after));
        }
        return ZoneRules.of(winter, winter, List.of(), list, List.of());
    }

    static void time(String zone, String question, String years, int count, Call call) {
        long probe = now();
        for (int i = 0; i < 20_000; i++) sink += call.at(i);
        double each = Math.max(0.1, (now() - probe) / 20_000.0);
        int used = (int) Math.max(2000, Math.min(count, 0.6e9 / each));
        int slice = (int) (1e6 / each) + 1, slices = (used + slice - 1) / slice;
        double[] least = new double[slices];
        Arrays.fill(least, 1e300);
        for (int pass = 0; pass < PASSES; pass++)
            for (int k = 0; k < slices; k++) {
                int end = Math.min(used, (k + 1) * slice);
                long start = now();
                for (int i = k * slice; i < end; i++) sink += call.at(i);
                least[k] = Math.min(least[k], now() - start);
            }
        double took = Arrays.stream(least).sum() / used;
        System.out.printf("java\t%s\t%s\t%s\t%.2f\t%d%n", zone, question, years, took, used);
    }

    static void write(Path folder, String zone, String question, String years, int[] told) throws IOException {
        ByteBuffer bytes = ByteBuffer.allocate(4 * told.length).order(ByteOrder.LITTLE_ENDIAN);
        bytes.asIntBuffer().put(told);
        Files.write(folder.resolve("java." + zone + "." + question + "." + years), bytes.array());
    }

    static void lookups(Path inputs, Path outputs, String zone, ZoneRules rules, String years) throws IOException {
        long[] at = seconds(inputs.resolve("at_" + years + ".i64"));
        Instant[] instants = new Instant[at.length];
        Arrays.setAll(instants, i -> Instant.ofEpochSecond(at[i]));
        int[] offsets = new int[CHECKED];
        Arrays.setAll(offsets, i -> rules.getOffset(instants[i]).getTotalSeconds());
        write(outputs, zone, "at", years, offsets);
        time(zone, "at", years, at.length, i -> rules.getOffset(instants[i]).getTotalSeconds());

        long[] wall = seconds(inputs.resolve("wall_" + years + ".i64"));
        LocalDateTime[] locals = new LocalDateTime[wall.length];
        Arrays.setAll(locals, i -> LocalDateTime.ofEpochSecond(wall[i], 0, ZoneOffset.UTC));
        int[] triples = new int[3 * CHECKED];
        for (int i = 0; i < CHECKED; i++) {
            List<ZoneOffset> valid = rules.getValidOffsets(locals[i]);
            triples[3 * i] = valid.size();
            if (!valid.isEmpty()) {
                triples[3 * i + 1] = valid.get(0).getTotalSeconds();
                triples[3 * i + 2] = valid.get(valid.size() - 1).getTotalSeconds();
            }
        }
        write(outputs, zone, "wall", years, triples);
        time(zone, "wall", years, wall.length, i -> rules.getValidOffsets(locals[i]).size());
    }

    /** Times a call, and writes the first answers: the low 32 bits of each. */
    static void ask(Path outputs, String zone, String question, int count, Call call) throws IOException {
        int[] told = new int[CHECKED];
        Arrays.setAll(told, i -> (int) call.at(i));
        write(outputs, zone, question, "near", told);
        time(zone, question, "near", count, call);
    }

    /** The second of a change; 0 if there is none. */
    static long second(ZoneOffsetTransition change) {
        return change == null ? 0 : change.toEpochSecond();
    }

    static void spans(Path inputs, Path outputs, String zone, ZoneRules rules) throws IOException {
        long[] at = seconds(inputs.resolve("at_near.i64"));
        Instant[] instants = new Instant[at.length], after = new Instant[at.length];
        Arrays.setAll(instants, i -> Instant.ofEpochSecond(at[i]));
        Arrays.setAll(after, i -> Instant.ofEpochSecond(at[i] + 1));
        Call begin = i -> second(rules.previousTransition(after[i])), end = i -> second(rules.nextTransition(instants[i]));
        int[] told = new int[2 * CHECKED];
        Arrays.setAll(told, i -> (int) (i % 2 == 0 ? begin : end).at(i / 2));
        write(outputs, zone, "span", "near", told);
        time(zone, "span", "near", at.length,
                i -> second(rules.previousTransition(after[i])) + second(rules.nextTransition(instants[i])));
    }

    static void changes(Path inputs, Path outputs, String zone, ZoneRules rules) throws IOException {
        long[] at = seconds(inputs.resolve("at_near.i64")), gap = seconds(inputs.resolve("gap_near.i64"));
        Instant[] instants = new Instant[at.length];
        Arrays.setAll(instants, i -> Instant.ofEpochSecond(at[i]));
        LocalDateTime[] locals = new LocalDateTime[gap.length];
        Arrays.setAll(locals, i -> LocalDateTime.ofEpochSecond(gap[i], 0, ZoneOffset.UTC));
        ask(outputs, zone, "next", at.length, i -> rules.nextTransition(instants[i]).toEpochSecond());
        ask(outputs, zone, "gap", gap.length, i -> gap[i] - rules.getTransition(locals[i]).getOffsetBefore().getTotalSeconds());
    }

    public static void main(String[] words) throws IOException {
        Path inputs = Path.of(words[0]), outputs = Path.of(words[1]);
        Map<String, ZoneRules> zones = new LinkedHashMap<>();
        for (String name : List.of("America/New_York", "Europe/London", "Asia/Tehran", "Africa/Casablanca", "America/Sao_Paulo"))
            zones.put(name.split("/")[1], ZoneId.of(name).getRules());
        zones.put("Text", ofText());
        zones.put("Large", made(1 << 20, 6000));
        for (int power = 4; power <= 20; power += 2) zones.put("" + (1 << power), made(1 << power, (6000L << 20) >> power));
        zones.keySet().retainAll(Files.readAllLines(inputs.resolve("names")));
        for (var zone : zones.entrySet())
            for (String years : Files.readAllLines(inputs.resolve("years")))
                lookups(inputs, outputs, zone.getKey(), zone.getValue(), years);
        for (var zone : zones.entrySet())
            if (!Character.isDigit(zone.getKey().charAt(0))) spans(inputs, outputs, zone.getKey(), zone.getValue());
        for (String zone : List.of("New_York", "Text"))
            if (zones.containsKey(zone)) changes(inputs, outputs, zone, zones.get(zone));
        System.err.println("sum of what was answered: " + sink);
    }
}
