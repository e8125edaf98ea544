package crew;

import java.util.ArrayList;
import java.util.List;
import java.util.Map;

/** A roster and a plan, held from one call to the next. A call that is refused changes nothing. */
public final class Desk {
    private final byte[] desk = new byte[Library.constant("desk")];

    public Desk() {
        Library.call("crew_open", desk, 0);
    }

    /** A call of crew.h on this desk: the numbers of its answer by their names. */
    public Map<String, Long> call(String name, int number, byte[]... slices) throws Refused {
        Map<String, Long> told = Library.call(name, desk, number, slices);
        Library.check(told.getOrDefault("refusal", 0L));
        return told;
    }

    public void loadRoster(byte[] file) throws Refused {
        call("crew_load_roster", 0, file);
    }

    public void loadPlan(byte[] file) throws Refused {
        call("crew_load_plan", 0, file);
    }

    public Found find() throws Refused {
        return found("crew_find", 0);
    }

    /** A surveyor joins, with a list of stands: its length, then a stand and a shift for each entry, best first. */
    public Found join(int quota, byte[] list) throws Refused {
        return found("crew_join", quota, list);
    }

    public Found leave(int number) throws Refused {
        return found("crew_leave", number);
    }

    private Found found(String name, int number, byte[]... given) throws Refused {
        byte[] diary = new byte[5 * Library.constant("CREW_DIARY_RECORDS")];
        byte[] left = new byte[Library.constant("CREW_LEFT_BYTES")];
        byte[] plan = new byte[Library.constant("CREW_PLAN_BYTES")];
        byte[] rival = new byte[Library.constant("CREW_PLAN_BYTES")];
        List<byte[]> slices = new ArrayList<>(List.of(given));
        slices.addAll(List.of(diary, left, plan, rival));
        Map<String, Long> told = call(name, number, slices.toArray(new byte[0][]));
        Found.Kind kind = Found.Kind.values()[told.get("kind").intValue() - 1];
        List<Found.Step> steps = new ArrayList<>();
        for (int i = 0; i < told.get("steps"); i++) {
            steps.add(new Found.Step(diary, 5 * i));
        }
        return new Found(kind, told.get("vote").intValue(), steps, pairs(left, 0, told.get("left").intValue()),
            planPairs(plan, told.get("plan_length").intValue()), planPairs(rival, told.get("rival_length").intValue()));
    }

    /** The pairs of a plan file of this length, three bytes each behind a count; none of one that was not written. */
    private static List<Found.Pair> planPairs(byte[] file, int length) {
        return pairs(file, 1, length / 3);
    }

    private static List<Found.Pair> pairs(byte[] bytes, int from, int count) {
        List<Found.Pair> pairs = new ArrayList<>();
        for (int i = 0; i < count; i++) {
            pairs.add(new Found.Pair(bytes, from + 3 * i));
        }
        return pairs;
    }
}
