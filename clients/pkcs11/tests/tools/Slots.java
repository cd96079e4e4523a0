import java.nio.file.Files;
import java.nio.file.Path;
import java.security.KeyStore;
import java.security.Provider;
import java.security.Security;
import java.util.Arrays;
import java.util.Collections;
import java.util.TreeSet;
import javax.crypto.Cipher;
import javax.crypto.KeyGenerator;
import javax.crypto.Mac;
import javax.crypto.SecretKey;
import javax.crypto.spec.IvParameterSpec;
import javax.crypto.spec.SecretKeySpec;

/// Java's SunPKCS11 over the module: `java Slots.java MODULE PIN COUNT`, where each of so many slots has a token whose user has that PIN.
class Slots {
    static byte[] under(Provider provider, String mode, int way, SecretKey key, byte[] iv, byte[] text) throws Exception {
        Cipher cipher = Cipher.getInstance(mode, provider);
        if (iv.length == 0) cipher.init(way, key);
        else cipher.init(way, key, new IvParameterSpec(iv));
        return cipher.doFinal(text);
    }

    static String entries(KeyStore store) throws Exception {
        return "entries: " + new TreeSet<>(Collections.list(store.aliases()));
    }

    static void play(String module, String pin, int slot) throws Exception {
        Path file = Files.createTempFile("tokend", ".cfg");
        Files.writeString(file, "name = slot" + slot + "\nlibrary = " + module + "\nslotListIndex = " + slot + "\n");
        Provider provider = Security.getProvider("SunPKCS11").configure(file.toString());
        Files.delete(file);
        Security.addProvider(provider);
        KeyStore store = KeyStore.getInstance("PKCS11", provider);
        store.load(null, pin.toCharArray());
        System.out.println(provider.getName() + ", " + entries(store));

        KeyGenerator generator = KeyGenerator.getInstance("AES", provider);
        generator.init(256);
        SecretKey key = generator.generateKey();
        byte[] text = new byte[48];
        Arrays.fill(text, (byte) 7);
        for (String mode : new String[] {"AES/ECB/NoPadding", "AES/CBC/NoPadding", "AES/CBC/PKCS5Padding", "AES/CTR/NoPadding"}) {
            byte[] iv = mode.contains("ECB") ? new byte[0] : new byte[16];
            byte[] secret = under(provider, mode, Cipher.ENCRYPT_MODE, key, iv, text);
            byte[] back = under(provider, mode, Cipher.DECRYPT_MODE, key, iv, secret);
            System.out.println(mode + ": " + secret.length + " bytes, " + (Arrays.equals(text, back) ? "the same text" : "ANOTHER TEXT"));
        }
        byte[] value = new byte[20];
        Arrays.fill(value, (byte) 0x0b);
        Mac mac = Mac.getInstance("HmacSHA256", provider);
        mac.init(new SecretKeySpec(value, "HmacSHA256"));
        byte[] tag = mac.doFinal("Hi There".getBytes());
        // (RFC 4231, 4.2)
        System.out.printf("HmacSHA256: %02x%02x%02x%02x%n", tag[0], tag[1], tag[2], tag[3]);

        store.setKeyEntry("java" + slot, new SecretKeySpec(new byte[32], "AES"), null, null);
        KeyStore again = KeyStore.getInstance("PKCS11", provider);
        again.load(null, pin.toCharArray());
        System.out.println(entries(again));
        again.deleteEntry("java" + slot);
        System.out.println(entries(again));
    }

    public static void main(String[] words) throws Exception {
        for (int slot = 0; slot < Integer.parseInt(words[2]); slot++) play(words[0], words[1], slot);
    }
}
