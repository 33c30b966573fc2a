import java.io.BufferedInputStream;
import java.io.BufferedOutputStream;
import java.io.ByteArrayInputStream;
import java.io.ByteArrayOutputStream;
import java.io.EOFException;
import java.io.File;
import java.io.FileDescriptor;
import java.io.FileOutputStream;
import java.io.IOException;
import java.io.InputStream;
import java.io.OutputStream;
import java.io.PrintStream;
import java.lang.reflect.InvocationTargetException;
import java.nio.charset.StandardCharsets;
import java.nio.file.Files;
import java.nio.file.Path;
import java.time.LocalDateTime;
import java.util.ArrayList;
import java.util.Collections;
import java.util.Comparator;
import java.util.List;
import java.util.stream.Stream;
import java.util.zip.ZipEntry;
import java.util.zip.ZipOutputStream;

/**
 * A warm kotlinc. Java compiles this file when it starts it.
 *
 * <p>usage: java -cp JARS KotlinWorker.java --persistent_worker | .. WORD.. @FILE.. | .. --self-test WORD..
 *
 * <p>JARS has the compiler. A request has the compiler's own words; {@code --jar=PATH} in front puts the classes into a jar
 * whose bytes depend only on the classes. The worker speaks protobuf, and answers one request at a time.
 */
public final class KotlinWorker {
  private KotlinWorker() {}

  public static void main(String[] start) throws IOException {
    List<String> words = new ArrayList<>();
    for (String word : start) {
      words.addAll(word.startsWith("@") ? Files.readAllLines(Path.of(word.substring(1))) : List.of(word));
    }
    if (words.contains("--persistent_worker")) {
      serve();
    } else if (words.contains("--self-test")) {
      selfTest(words.subList(words.indexOf("--self-test") + 1, words.size()));
    } else {
      System.exit(carryOut(words, System.err) ? 0 : 1);
    }
  }

  // The compiler. It is found by name, since Java compiles this file without it.

  private static boolean compile(String[] words, PrintStream print) throws ReflectiveOperationException {
    Class<?> compiler = Class.forName("org.jetbrains.kotlin.cli.jvm.K2JVMCompiler");
    Object made = compiler.getDeclaredConstructor().newInstance();
    Object code = compiler.getMethod("exec", PrintStream.class, String[].class).invoke(made, print, words);
    return (int) code.getClass().getMethod("getCode").invoke(code) == 0;
  }

  // One request.

  /** Carries out a request. Returns whether it succeeded. */
  private static boolean carryOut(List<String> words, PrintStream print) {
    PrintStream out = System.out;
    PrintStream err = System.err;
    System.setOut(print);
    System.setErr(print);
    Path folder = null;
    try {
      List<String> asked = new ArrayList<>(words);
      String jar = asked.isEmpty() || !asked.get(0).startsWith("--jar=") ? null : asked.remove(0).substring("--jar=".length());
      if (jar != null) {
        folder = Files.createTempDirectory("classes");
        asked.addAll(List.of("-d", folder.toString()));
      }
      boolean good = compile(asked.toArray(new String[0]), print);
      if (good && jar != null) {
        writeJar(folder, new File(jar).getAbsoluteFile().toPath());
      }
      return good;
    } catch (InvocationTargetException fault) {
      fault.getCause().printStackTrace(print);
      return false;
    } catch (IOException | ReflectiveOperationException | RuntimeException fault) {
      fault.printStackTrace(print);
      return false;
    } finally {
      System.setOut(out);
      System.setErr(err);
      remove(folder);
    }
  }

  /** Returns the regular files below a folder, in the order of their names. */
  private static List<Path> filesBelow(Path folder) throws IOException {
    try (Stream<Path> found = Files.walk(folder)) {
      return found.filter(Files::isRegularFile).sorted().toList();
    }
  }

  private static void writeJar(Path folder, Path jar) throws IOException {
    Files.createDirectories(jar.getParent());
    try (ZipOutputStream zip = new ZipOutputStream(new BufferedOutputStream(Files.newOutputStream(jar)))) {
      for (Path file : filesBelow(folder)) {
        ZipEntry entry = new ZipEntry(folder.relativize(file).toString());
        entry.setTimeLocal(LocalDateTime.of(2010, 1, 1, 0, 0));
        zip.putNextEntry(entry);
        Files.copy(file, zip);
        zip.closeEntry();
      }
    }
  }

  private static void remove(Path folder) {
    if (folder == null) {
      return;
    }
    try (Stream<Path> found = Files.walk(folder)) {
      found.sorted(Comparator.reverseOrder()).map(Path::toFile).forEach(File::delete);
    } catch (IOException stays) {
      // A folder that stays in the folder for temporary files harms no request.
    }
  }

  // The worker protocol: each message is preceded by its length.

  private static void serve() throws IOException {
    OutputStream answers = new BufferedOutputStream(new FileOutputStream(FileDescriptor.out));
    System.setOut(System.err);
    InputStream in = new BufferedInputStream(System.in);
    for (int length; (length = number(in)) >= 0; ) {
      byte[] message = in.readNBytes(length);
      if (message.length < length) {
        throw new EOFException("a message is cut");
      }
      ByteArrayOutputStream said = new ByteArrayOutputStream();
      boolean good = carryOut(wordsOf(message), new PrintStream(said, true, StandardCharsets.UTF_8));
      ByteArrayOutputStream body = new ByteArrayOutputStream();
      body.writeBytes(good ? new byte[] {} : new byte[] {8, 1});
      body.write(18);
      put(body, said.size());
      said.writeTo(body);
      put(answers, body.size());
      body.writeTo(answers);
      answers.flush();
    }
    System.exit(0);
  }

  /** The words of a request: field 1 of its message. */
  private static List<String> wordsOf(byte[] message) throws IOException {
    ByteArrayInputStream in = new ByteArrayInputStream(message);
    List<String> words = new ArrayList<>();
    while (in.available() > 0) {
      int tag = number(in);
      int value = number(in);
      if ((tag & 7) == 2) {
        byte[] bytes = in.readNBytes(value);
        if (tag >> 3 == 1) {
          words.add(new String(bytes, StandardCharsets.UTF_8));
        }
      }
    }
    return words;
  }

  /** A number in groups of seven bits, the lowest first; -1 at the end of the stream. */
  private static int number(InputStream in) throws IOException {
    int value = 0;
    for (int shift = 0; ; shift += 7) {
      int held = in.read();
      if (held < 0) {
        return -1;
      }
      value |= (held & 127) << shift;
      if (held < 128) {
        return value;
      }
    }
  }

  private static void put(OutputStream out, int value) throws IOException {
    int rest = value;
    for (; rest >>> 7 != 0; rest >>>= 7) {
      out.write(rest & 127 | 128);
    }
    out.write(rest);
  }

  /** Compiles a source that is wrong, and then the same source mended, with these words in front. */
  private static void selfTest(List<String> before) throws IOException {
    Path folder = Files.createTempDirectory("kotlin_worker");
    Path source = folder.resolve("a.kt");
    List<Boolean> good = new ArrayList<>();
    ByteArrayOutputStream said = new ByteArrayOutputStream();
    for (String text : List.of("\"x\"", "1")) {
      Files.writeString(source, "val a: Int = " + text + "\n");
      List<String> words = new ArrayList<>(List.of("--jar=" + folder.resolve("a.jar")));
      words.addAll(before);
      Collections.addAll(words, source.toString());
      good.add(carryOut(words, new PrintStream(said, true, StandardCharsets.UTF_8)));
    }
    boolean made = Files.exists(folder.resolve("a.jar"));
    remove(folder);
    if (!good.equals(List.of(false, true)) || !said.toString(StandardCharsets.UTF_8).contains("mismatch") || !made) {
      throw new AssertionError(said.toString(StandardCharsets.UTF_8));
    }
    System.out.println("as expected");
    System.exit(0);
  }
}
