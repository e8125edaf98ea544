import crew.Desk;
import crew.Found;
import crew.Refused;

import java.nio.file.Files;
import java.nio.file.Path;
import java.util.ArrayList;
import java.util.List;

/** java Example LIBCREWJNI.so ROSTER..: what the program crew prints for each roster. */
public final class Example {
    private static void pairs(List<String> lines, String name, List<Found.Pair> pairs) {
        lines.add(name + " " + pairs.size());
        pairs.forEach(pair -> lines.add(pair.toString()));
    }

    private static List<String> told(byte[] file) {
        List<String> lines = new ArrayList<>();
        try {
            Desk desk = new Desk();
            desk.loadRoster(file);
            Found found = desk.find();
            found.diary.forEach(step -> lines.add(step.toString()));
            switch (found.kind) {
                case PLAN -> pairs(lines, "plan", found.plan);
                case LEFT -> pairs(lines, "none left", found.left);
                default -> {
                    lines.add("none rivalled " + found.vote);
                    pairs(lines, "candidate", found.plan);
                    pairs(lines, "rival", found.rival);
                }
            }
        } catch (Refused refused) {
            lines.add("refused " + refused.number + " " + refused.group);
        }
        return lines;
    }

    public static void main(String[] names) throws Exception {
        System.load(Path.of(names[0]).toAbsolutePath().toString());
        for (int i = 1; i < names.length; i++) {
            System.out.println(String.join("\n", told(Files.readAllBytes(Path.of(names[i])))));
        }
    }
}
