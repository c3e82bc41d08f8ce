// The store of store.c.
import java.nio.ByteBuffer;
import java.nio.channels.FileChannel;
import java.nio.file.Files;
import java.nio.file.Path;
import java.nio.file.StandardCopyOption;
import java.nio.file.StandardOpenOption;

class Store {
    public static void main(String[] words) throws Exception {
        try (FileChannel file = FileChannel.open(Path.of("new"), StandardOpenOption.WRITE, StandardOpenOption.CREATE,
                StandardOpenOption.TRUNCATE_EXISTING)) {
            file.write(ByteBuffer.wrap("value".getBytes()));
            file.truncate(4);
            file.force(true);
        }
        Files.move(Path.of("new"), Path.of("value"), StandardCopyOption.ATOMIC_MOVE);
        try (FileChannel folder = FileChannel.open(Path.of("."), StandardOpenOption.READ)) {
            folder.force(true);
        }
        ByteBuffer bytes = ByteBuffer.allocate(4);
        try (FileChannel file = FileChannel.open(Path.of("value"), StandardOpenOption.READ)) {
            if (file.read(bytes) != 4 || !new String(bytes.array()).equals("valu")) System.exit(1);
        }
        Files.createLink(Path.of("other"), Path.of("value"));
        Files.createSymbolicLink(Path.of("way"), Path.of("value"));
        Files.delete(Path.of("old"));
        Files.createDirectory(Path.of("made"));
        Files.delete(Path.of("made"));
    }
}
