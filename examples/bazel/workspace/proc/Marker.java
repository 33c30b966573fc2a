package shop.proc;

import java.io.IOException;
import java.io.UncheckedIOException;
import java.io.Writer;
import java.util.Set;
import javax.annotation.processing.AbstractProcessor;
import javax.annotation.processing.RoundEnvironment;
import javax.annotation.processing.SupportedAnnotationTypes;
import javax.lang.model.SourceVersion;
import javax.lang.model.element.Element;
import javax.lang.model.element.TypeElement;

/** Makes a class for each one that has the mark. */
@SupportedAnnotationTypes("shop.proc.Mark")
public class Marker extends AbstractProcessor {
  @Override
  public SourceVersion getSupportedSourceVersion() {
    return SourceVersion.latestSupported();
  }

  @Override
  public boolean process(Set<? extends TypeElement> marks, RoundEnvironment round) {
    for (Element marked : round.getElementsAnnotatedWith(Mark.class)) {
      String name = marked.getSimpleName().toString();
      try (Writer out = processingEnv.getFiler().createSourceFile("shop.app." + name + "Marked").openWriter()) {
        out.write("package shop.app; class " + name + "Marked { String name() { return \"" + name + "\"; } }");
      } catch (IOException fault) {
        throw new UncheckedIOException(fault);
      }
    }
    return true;
  }
}
