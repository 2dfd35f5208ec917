import java.io.IOException;
import java.io.PrintWriter;
import java.nio.file.Files;
import java.nio.file.Path;
import java.time.Duration;
import java.time.Instant;
import java.time.LocalDate;
import java.time.LocalDateTime;
import java.time.LocalTime;
import java.time.ZoneId;
import java.time.ZoneOffset;
import java.time.ZonedDateTime;
import java.time.format.DateTimeFormatter;
import java.util.Arrays;
import java.util.Comparator;

/**
 * java.time's ZonedDateTime at the questions of crates/bench_instants. What it prints and writes is said in work.h.
 *
 * <p>usage: Work INPUTS OUTPUTS QUESTION, one question for each process, so that the compiler sees one call at a time.
 */
public class Work {
    static final int COUNT = 100_000, MANY = 1_000_000, SLICE = 1000, PASSES = 10, SORTS = 10, DAYS = 28;
    static final long WARMING = 2_000_000_000L;
    static final DateTimeFormatter FORM = DateTimeFormatter.ofPattern("uuuu-MM-dd HH:mm:ss xxx");
    static final long CLOCK_COST = Zones.clockCost();
    static final LocalTime HALF_PAST_TWO = LocalTime.of(2, 30);
    static long sink;

    interface Call {
        long at(int i);
    }

    static long digits(ZonedDateTime at) {
        long date = at.getYear() * 10_000L + at.getMonthValue() * 100 + at.getDayOfMonth();
        return date * 1_000_000 + at.getHour() * 10_000 + at.getMinute() * 100 + at.getSecond();
    }

    static void figure(String question, double took, int count) {
        System.out.printf("java\tNew_York\t%s\tnear\t%.2f\t%d%n", question, took, count);
    }

    static double time(Call call, int from) {
        long start = Zones.now(), sum = 0;
        for (int i = from; i < from + SLICE; i++) sum += call.at(i);
        sink += sum;
        return Math.max(0, Zones.now() - start - CLOCK_COST);
    }

    /** The sum of the least times of the slices, when the compiler has seen the calls. */
    static double least(Call call) {
        long end = System.nanoTime() + WARMING;
        while (System.nanoTime() < end) for (int from = 0; from < COUNT; from += SLICE) time(call, from);
        double sum = 0;
        for (int from = 0; from < COUNT; from += SLICE) {
            double least = 1e300;
            for (int pass = 0; pass < PASSES; pass++) least = Math.min(least, time(call, from));
            sum += least;
        }
        return sum / COUNT;
    }

    static long daily(LocalDateTime reading, ZoneId zone) {
        LocalDate first = reading.toLocalDate();
        long sum = 0;
        for (int day = 0; day < DAYS; day++)
            sum += ZonedDateTime.of(first.plusDays(day), HALF_PAST_TWO, zone).toEpochSecond();
        return sum;
    }

    static void sort(ZonedDateTime[] instants, PrintWriter answers) {
        Comparator<ZonedDateTime> order = Comparator.comparingLong(ZonedDateTime::toEpochSecond);
        double least = 1e300;
        for (int pass = 0; pass < SORTS; pass++) {
            ZonedDateTime[] copy = instants.clone();
            long start = Zones.now();
            Arrays.sort(copy, order);
            least = Math.min(least, Zones.now() - start);
            sink += copy[0].toEpochSecond();
        }
        figure("sort", least / instants.length, instants.length);
        ZonedDateTime[] few = Arrays.copyOf(instants, COUNT);
        Arrays.sort(few, order);
        for (ZonedDateTime each : few) answers.printf("sort\t%d\n", each.toEpochSecond());
    }

    public static void main(String[] words) throws IOException {
        Path inputs = Path.of(words[0]);
        String question = words[2];
        int size = question.equals("sort") ? MANY : COUNT;
        long[] at = Zones.seconds(inputs.resolve("at_near.i64")), wall = Zones.seconds(inputs.resolve("wall_near.i64")),
                gap = Zones.seconds(inputs.resolve("gap_near.i64"));
        ZoneId zone = ZoneId.of("America/New_York"), other = ZoneId.of("Europe/London");
        ZonedDateTime[] instants = new ZonedDateTime[size], others = new ZonedDateTime[COUNT];
        LocalDateTime[] readings = new LocalDateTime[COUNT], skipped = new LocalDateTime[COUNT];
        int[][] typed = new int[COUNT][];
        Arrays.setAll(instants, i -> Instant.ofEpochSecond(at[i]).atZone(zone));
        Arrays.setAll(others, i -> Instant.ofEpochSecond(wall[i]).atZone(zone));
        Arrays.setAll(readings, i -> LocalDateTime.ofEpochSecond(wall[i], 0, ZoneOffset.UTC));
        Arrays.setAll(skipped, i -> LocalDateTime.ofEpochSecond(gap[i], 0, ZoneOffset.UTC));
        Arrays.setAll(typed, i -> {
            LocalDateTime each = readings[i];
            return new int[] {each.getYear(), each.getMonthValue(), each.getDayOfMonth(), each.getHour(), each.getMinute(),
                    each.getSecond()};
        });
        Call call = switch (question) {
            case "fields_at" -> i -> digits(Instant.ofEpochSecond(at[i]).atZone(zone));
            case "fields" -> i -> digits(instants[i]);
            case "from_fields" -> i -> {
                int[] each = typed[i];
                return ZonedDateTime.of(each[0], each[1], each[2], each[3], each[4], each[5], 0, zone).toEpochSecond();
            };
            case "month_later" -> i -> instants[i].plusMonths(1).toEpochSecond();
            case "day_later" -> i -> instants[i].plusDays(1).toEpochSecond();
            case "at_nine" -> i -> instants[i].withHour(9).toEpochSecond();
            case "five_minutes" -> i -> {
                ZonedDateTime each = instants[i];
                return each.minusSeconds(each.getMinute() % 5 * 60 + each.getSecond()).toEpochSecond();
            };
            case "whole_day" -> i -> {
                ZonedDateTime each = instants[i];
                return each.minusSeconds(each.toLocalTime().toSecondOfDay()).toEpochSecond();
            };
            case "difference" -> i -> Duration.between(others[i], instants[i]).getSeconds();
            case "order" -> i -> instants[i].isBefore(others[i]) ? 1 : 0;
            case "print" -> i -> FORM.format(instants[i]).length();
            case "elsewhere" -> i -> {
                ZonedDateTime there = instants[i].withZoneSameInstant(other);
                return there.toEpochSecond() + there.getOffset().getTotalSeconds();
            };
            case "resolve" -> i -> readings[i].atZone(zone).toEpochSecond();
            case "in_gap" -> i -> skipped[i].atZone(zone).toEpochSecond();
            case "daily" -> i -> daily(readings[i], zone);
            default -> null;
        };
        try (PrintWriter answers = new PrintWriter(words[1] + "/java.answers." + question)) {
            if (call == null) {
                sort(instants, answers);
                return;
            }
            figure(question, least(call), COUNT);
            for (int i = 0; i < COUNT; i++) answers.printf("%s\t%d\n", question, call.at(i));
            if (question.equals("print")) for (int i = 0; i < COUNT; i++) answers.printf("text\t%s\n", FORM.format(instants[i]));
        }
        System.err.println("sum of what was answered: " + sink);
    }
}
