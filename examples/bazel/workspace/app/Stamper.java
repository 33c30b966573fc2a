package shop.app;

import java.nio.file.Files;
import java.nio.file.Path;

/** The tool of a genrule: copies a text, with a word before it. */
public class Stamper {
  public static void main(String[] words) throws Exception {
    Files.writeString(Path.of(words[1]), "stamped " + Files.readString(Path.of(words[0])));
  }
}
