import java.io.BufferedInputStream;
import java.io.ByteArrayInputStream;
import java.io.DataInputStream;
import java.io.EOFException;
import java.io.IOException;
import java.io.InputStream;
import java.nio.ByteBuffer;
import java.util.ArrayDeque;
import java.util.Arrays;
import org.apache.jute.BinaryInputArchive;
import org.apache.jute.Record;
import org.apache.zookeeper.MultiOperationRecord;
import org.apache.zookeeper.MultiResponse;
import org.apache.zookeeper.proto.*;

/**
 * Decodes a recording with ZooKeeper's own record classes, to have a time to compare with. Each reply is
 * read by the oldest waiting request of its xid's kind. It prints the number of messages that it decoded.
 *
 *     java -cp zookeeper-jute.jar:zookeeper.jar bench/JuteDecode.java < recording
 *
 * The jars are those of the Debian package libzookeeper-java.
 */
public final class JuteDecode {
    private static final int PING = -2;
    private static final int AUTH = -4;
    private static final int WATCHES = -8;
    private static final int EVENT = -1;

    /** The bytes of one side that are no whole frame yet. */
    private static final class Side {
        byte[] held = new byte[1 << 16];
        int length;
        long frames;

        void add(byte[] bytes, int size) {
            if (length + size > held.length) {
                held = Arrays.copyOf(held, Math.max(2 * held.length, length + size));
            }
            System.arraycopy(bytes, 0, held, length, size);
            length += size;
        }
    }

    private final Side client = new Side();
    private final Side server = new Side();
    private final ArrayDeque<Integer> pings = new ArrayDeque<>();
    private final ArrayDeque<Integer> auths = new ArrayDeque<>();
    private final ArrayDeque<Integer> watches = new ArrayDeque<>();
    private final ArrayDeque<Integer> plain = new ArrayDeque<>();

    private ArrayDeque<Integer> lane(int xid) {
        switch (xid) {
            case PING: return pings;
            case AUTH: return auths;
            case WATCHES: return watches;
            default: return plain;
        }
    }

    private static void read(BinaryInputArchive archive, Record record) throws IOException {
        record.deserialize(archive, "record");
    }

    private void request(BinaryInputArchive archive) throws IOException {
        RequestHeader header = new RequestHeader();
        read(archive, header);
        lane(header.getXid()).add(header.getType());
        switch (header.getType()) {
            case 1: read(archive, new CreateRequest()); break;
            case 2: read(archive, new DeleteRequest()); break;
            case 3: read(archive, new ExistsRequest()); break;
            case 4: read(archive, new GetDataRequest()); break;
            case 5: read(archive, new SetDataRequest()); break;
            case 6: read(archive, new GetACLRequest()); break;
            case 7: read(archive, new SetACLRequest()); break;
            case 8: read(archive, new GetChildrenRequest()); break;
            case 9: read(archive, new SyncRequest()); break;
            case 12: read(archive, new GetChildren2Request()); break;
            case 14: read(archive, new MultiOperationRecord()); break;
            case 100: read(archive, new AuthPacket()); break;
            case 101: read(archive, new SetWatches()); break;
            default: break;
        }
    }

    private void reply(BinaryInputArchive archive) throws IOException {
        ReplyHeader header = new ReplyHeader();
        read(archive, header);
        if (header.getXid() == EVENT) {
            read(archive, new WatcherEvent());
            return;
        }
        int type = lane(header.getXid()).remove();
        if (header.getErr() != 0) {
            return;
        }
        switch (type) {
            case 1: read(archive, new CreateResponse()); break;
            case 3: read(archive, new ExistsResponse()); break;
            case 4: read(archive, new GetDataResponse()); break;
            case 5: read(archive, new SetDataResponse()); break;
            case 6: read(archive, new GetACLResponse()); break;
            case 7: read(archive, new SetACLResponse()); break;
            case 8: read(archive, new GetChildrenResponse()); break;
            case 9: read(archive, new SyncResponse()); break;
            case 12: read(archive, new GetChildren2Response()); break;
            case 14: read(archive, new MultiResponse()); break;
            default: break;
        }
    }

    private void payload(Side side, int at, int size) throws IOException {
        InputStream bytes = new ByteArrayInputStream(side.held, at, size);
        BinaryInputArchive archive = BinaryInputArchive.getArchive(bytes);
        boolean first = side.frames++ == 0;
        if (side == client) {
            if (first) {
                read(archive, new ConnectRequest());
            } else {
                request(archive);
            }
        } else if (first) {
            read(archive, new ConnectResponse());
        } else {
            reply(archive);
        }
    }

    private void frames(Side side) throws IOException {
        int at = 0;
        while (side.length - at >= 4) {
            int size = ByteBuffer.wrap(side.held, at, 4).getInt();
            if (side.length - at - 4 < size) {
                break;
            }
            payload(side, at + 4, size);
            at += 4 + size;
        }
        System.arraycopy(side.held, at, side.held, 0, side.length - at);
        side.length -= at;
    }

    private long recording(InputStream input) throws IOException {
        DataInputStream data = new DataInputStream(new BufferedInputStream(input, 1 << 16));
        if (data.readInt() != 0x5a4b5231) {
            throw new IOException("this is no recording");
        }
        byte[] bytes = new byte[1 << 16];
        while (true) {
            int letter = data.read();
            if (letter < 0) {
                return client.frames + server.frames;
            }
            int size = data.readInt();
            if (size > bytes.length) {
                bytes = new byte[size];
            }
            data.readFully(bytes, 0, size);
            Side side = letter == 'C' ? client : server;
            side.add(bytes, size);
            frames(side);
        }
    }

    public static void main(String[] words) throws IOException {
        try {
            System.out.println(new JuteDecode().recording(System.in) + " messages");
        } catch (EOFException end) {
            System.out.println("the recording is cut");
        }
    }
}
