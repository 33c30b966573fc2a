import java.io.BufferedInputStream;
import java.io.BufferedOutputStream;
import java.io.ByteArrayInputStream;
import java.io.ByteArrayOutputStream;
import java.io.EOFException;
import java.io.File;
import java.io.FileDescriptor;
import java.io.FileOutputStream;
import java.io.IOException;
import java.io.InputStream;
import java.io.OutputStream;
import java.io.StringWriter;
import java.net.URI;
import java.nio.charset.StandardCharsets;
import java.nio.file.Files;
import java.nio.file.Path;
import java.time.LocalDateTime;
import java.util.ArrayList;
import java.util.Arrays;
import java.util.HexFormat;
import java.util.Iterator;
import java.util.List;
import java.util.Locale;
import java.util.Map;
import java.util.SortedMap;
import java.util.TreeMap;
import java.util.concurrent.ExecutorService;
import java.util.concurrent.Executors;
import java.util.zip.ZipEntry;
import java.util.zip.ZipOutputStream;
import javax.tools.FileObject;
import javax.tools.ForwardingJavaFileManager;
import javax.tools.JavaCompiler;
import javax.tools.JavaFileManager;
import javax.tools.JavaFileObject;
import javax.tools.SimpleJavaFileObject;
import javax.tools.StandardJavaFileManager;
import javax.tools.StandardLocation;
import javax.tools.ToolProvider;

/**
 * The JDK's own compiler as a persistent worker.
 *
 * <p>A request has the words {@code --jar=PATH}, options of javac, and sources. Its classes are put into that jar, whose
 * bytes depend on nothing but the classes. Annotation processors aren't run.
 *
 * <p>Start-up words: {@code --threads=N} compiles up to N requests at once (1). Without {@code --persistent_worker} the
 * words, and the lines of the file of each word {@code @FILE}, are one request, and the status is its exit code.
 */
public final class WarmJavac {
  private static final JavaCompiler COMPILER = ToolProvider.getSystemJavaCompiler();
  private static final OutputStream RESPONSES = new BufferedOutputStream(new FileOutputStream(FileDescriptor.out));

  /** What each thread keeps from one request to the next: the opened jars of a class path. */
  private static final ThreadLocal<ClassPath> KEPT = new ThreadLocal<>();

  private WarmJavac() {}

  public static void main(String[] words) throws IOException {
    // What a library prints must not stand between two responses.
    System.setOut(System.err);
    List<String> own = Arrays.asList(words);
    if (own.contains("--persistent_worker")) {
      serve(threads(own));
      System.exit(0);
    }
    List<String> all = new ArrayList<>();
    for (String word : own) {
      all.addAll(word.startsWith("@") ? Files.readAllLines(Path.of(word.substring(1))) : List.of(word));
    }
    Response response = compile(new Request(all, Map.of(), 0, false, ""));
    System.err.print(response.text);
    System.exit(response.exitCode);
  }

  private static int threads(List<String> words) {
    String option = "--threads=";
    return words.stream().filter(it -> it.startsWith(option)).mapToInt(it -> Integer.parseInt(it.substring(option.length())))
        .findFirst().orElse(1);
  }

  /** Answers requests until there are no more. */
  private static void serve(int threads) throws IOException {
    ExecutorService pool = Executors.newFixedThreadPool(threads);
    InputStream requests = new BufferedInputStream(System.in);
    for (long length; (length = readNumber(requests)) >= 0; ) {
      Request request = Request.read(readBytes(requests, length));
      // A request that has begun is done to its end, so one that cancels it has nothing to do.
      if (!request.cancels) {
        pool.execute(() -> compile(request).write(request.id));
      }
    }
  }

  // The compiler.

  /** Compiles the sources of a request. */
  private static Response compile(Request request) {
    StringWriter said = new StringWriter();
    int exitCode = 1;
    try {
      exitCode = new Compilation(request).run(said) ? 0 : 1;
    } catch (IOException | RuntimeException fault) {
      KEPT.remove();
      said.append(fault.toString()).append('\n');
    }
    // The compiler names files as they stand for it; a request that has its own folder doesn't speak of that.
    String text = request.folder.isEmpty() ? said.toString() : said.toString().replace(request.folder + "/", "");
    return new Response(exitCode, text);
  }

  /** What the words of a request ask for. */
  private static final class Compilation {
    private final Request request;
    private final List<String> options = new ArrayList<>(List.of("-proc:none", "-implicit:none"));
    private final List<File> sources = new ArrayList<>();
    private List<String> classPath = List.of();
    private String jar;

    Compilation(Request request) {
      this.request = request;
      for (Iterator<String> words = request.words.iterator(); words.hasNext(); ) {
        String word = words.next();
        if (word.startsWith("--jar=")) {
          jar = word.substring("--jar=".length());
        } else if (List.of("-cp", "-classpath", "--class-path").contains(word)) {
          classPath = List.of(words.next().split(File.pathSeparator));
        } else if (word.endsWith(".java")) {
          sources.add(request.at(word));
        } else {
          options.add(word);
        }
      }
    }

    /** Whether it went well; what the compiler says is put into {@code said}. */
    boolean run(StringWriter said) throws IOException {
      StandardJavaFileManager files = ClassPath.of(classPath, request).files;
      MadeClasses made = new MadeClasses(files);
      boolean done =
          COMPILER.getTask(said, made, null, options, null, files.getJavaFileObjectsFromFiles(sources)).call();
      if (done && jar != null) {
        made.writeJar(request.at(jar));
      }
      return done;
    }
  }

  /** An opened class path. */
  private static final class ClassPath {
    private final List<String> key;
    private final StandardJavaFileManager files;

    private ClassPath(List<String> key, List<File> parts) throws IOException {
      this.key = key;
      files = COMPILER.getStandardFileManager(null, Locale.ROOT, StandardCharsets.UTF_8);
      files.setLocation(StandardLocation.CLASS_PATH, parts);
    }

    /**
     * Closes all jars. As the JDK closes one it looks for its path, and stops if the jar is gone: that of an earlier
     * request's class path may be. Called again, it goes on with the next one.
     */
    private void close() {
      for (int jar = 0; jar <= key.size(); jar++) {
        try {
          files.close();
          return;
        } catch (IOException gone) {
          // That jar is closed, and nothing of it was to be written.
        }
      }
    }

    /** The one that this thread has kept, if its files are the same and have the digests that they had; else a new one. */
    static ClassPath of(List<String> parts, Request request) throws IOException {
      List<String> key = new ArrayList<>();
      for (String part : parts) {
        key.add(request.at(part) + "=" + request.digests.get(part));
      }
      ClassPath kept = KEPT.get();
      if (kept == null || !kept.key.equals(key)) {
        if (kept != null) {
          kept.close();
        }
        kept = new ClassPath(key, parts.stream().map(request::at).toList());
        KEPT.set(kept);
      }
      return kept;
    }
  }

  /** The classes of a request, in memory. */
  private static final class MadeClasses extends ForwardingJavaFileManager<JavaFileManager> {
    private final SortedMap<String, ByteArrayOutputStream> classes = new TreeMap<>();

    MadeClasses(JavaFileManager below) {
      super(below);
    }

    @Override
    public JavaFileObject getJavaFileForOutput(Location place, String name, JavaFileObject.Kind kind, FileObject by) {
      String path = name.replace('.', '/') + kind.extension;
      ByteArrayOutputStream bytes = new ByteArrayOutputStream();
      classes.put(path, bytes);
      return new SimpleJavaFileObject(URI.create("memory:///" + path), kind) {
        @Override
        public OutputStream openOutputStream() {
          return bytes;
        }
      };
    }

    /** The class path stays open for the next request. */
    @Override
    public void close() {}

    /** Writes a jar with the classes in the order of their names, and each with the same time. */
    void writeJar(File jar) throws IOException {
      Files.createDirectories(jar.getAbsoluteFile().toPath().getParent());
      try (ZipOutputStream zip = new ZipOutputStream(new BufferedOutputStream(new FileOutputStream(jar)))) {
        for (Map.Entry<String, ByteArrayOutputStream> made : classes.entrySet()) {
          ZipEntry entry = new ZipEntry(made.getKey());
          entry.setTimeLocal(LocalDateTime.of(2010, 1, 1, 0, 0));
          zip.putNextEntry(entry);
          made.getValue().writeTo(zip);
          zip.closeEntry();
        }
      }
    }
  }

  // The worker protocol, whose messages stand behind their lengths.

  /** A request: its words, the digest of each input, its number, whether it cancels that one, and its own folder. */
  private record Request(List<String> words, Map<String, String> digests, int id, boolean cancels, String folder) {
    static Request read(byte[] message) throws IOException {
      List<String> words = new ArrayList<>();
      Map<String, String> digests = new TreeMap<>();
      int id = 0;
      boolean cancels = false;
      String folder = "";
      for (Field field : Field.all(message)) {
        switch (field.number) {
          case 1 -> words.add(field.text());
          case 2 -> readInput(field.bytes, digests);
          case 3 -> id = (int) field.value;
          case 4 -> cancels = field.value != 0;
          case 6 -> folder = field.text();
          default -> { }
        }
      }
      return new Request(words, digests, id, cancels, folder);
    }

    private static void readInput(byte[] message, Map<String, String> digests) throws IOException {
      String path = "";
      String digest = "";
      for (Field field : Field.all(message)) {
        switch (field.number) {
          case 1 -> path = field.text();
          case 2 -> digest = HexFormat.of().formatHex(field.bytes);
          default -> { }
        }
      }
      digests.put(path, digest);
    }

    /** Where the file of a path of this request is. */
    File at(String path) {
      return folder.isEmpty() || path.startsWith("/") ? new File(path) : new File(folder, path);
    }
  }

  private record Response(int exitCode, String text) {
    void write(int id) {
      ByteArrayOutputStream message = new ByteArrayOutputStream();
      byte[] bytes = text.getBytes(StandardCharsets.UTF_8);
      writeNumber(message, 1 << 3);
      writeNumber(message, exitCode);
      writeNumber(message, 2 << 3 | 2);
      writeNumber(message, bytes.length);
      message.writeBytes(bytes);
      writeNumber(message, 3 << 3);
      writeNumber(message, id);
      ByteArrayOutputStream frame = new ByteArrayOutputStream();
      writeNumber(frame, message.size());
      frame.writeBytes(message.toByteArray());
      synchronized (RESPONSES) {
        try {
          frame.writeTo(RESPONSES);
          RESPONSES.flush();
        } catch (IOException gone) {
          System.exit(1);
        }
      }
    }
  }

  /** A field of a message: its number, and its value or its bytes. */
  private record Field(int number, long value, byte[] bytes) {
    static List<Field> all(byte[] message) throws IOException {
      InputStream in = new ByteArrayInputStream(message);
      List<Field> fields = new ArrayList<>();
      for (long tag; (tag = readNumber(in)) >= 0; ) {
        long value = readNumber(in);
        fields.add(new Field((int) (tag >> 3), value, (tag & 7) == 2 ? readBytes(in, value) : new byte[0]));
      }
      return fields;
    }

    String text() {
      return new String(bytes, StandardCharsets.UTF_8);
    }
  }

  /** A number in groups of seven bits, the lowest first; -1 at the end of the stream. */
  private static long readNumber(InputStream in) throws IOException {
    long number = 0;
    for (int shift = 0; ; shift += 7) {
      int next = in.read();
      if (next < 0) {
        return -1;
      }
      number |= (long) (next & 127) << shift;
      if (next < 128) {
        return number;
      }
    }
  }

  private static byte[] readBytes(InputStream in, long length) throws IOException {
    byte[] bytes = in.readNBytes((int) length);
    if (bytes.length < length) {
      throw new EOFException("a message is cut");
    }
    return bytes;
  }

  private static void writeNumber(ByteArrayOutputStream out, long number) {
    for (; number >= 128; number >>= 7) {
      out.write((int) (number & 127 | 128));
    }
    out.write((int) number);
  }
}
