import java.io.File;
import java.io.IOException;
import java.io.PrintWriter;
import java.math.BigInteger;
import java.nio.file.Files;
import java.security.KeyPair;
import java.security.KeyPairGenerator;
import java.security.MessageDigest;
import java.security.PrivateKey;
import java.security.Security;
import java.security.cert.X509Certificate;
import java.time.Instant;
import java.util.Date;
import java.util.Hashtable;
import java.util.List;
import javax.crypto.spec.SecretKeySpec;
import org.bouncycastle.asn1.ASN1Encodable;
import org.bouncycastle.asn1.ASN1ObjectIdentifier;
import org.bouncycastle.asn1.DERBMPString;
import org.bouncycastle.asn1.DERNull;
import org.bouncycastle.asn1.DERSequence;
import org.bouncycastle.asn1.DERSet;
import org.bouncycastle.asn1.DERTaggedObject;
import org.bouncycastle.asn1.DERUTF8String;
import org.bouncycastle.asn1.cms.Attribute;
import org.bouncycastle.asn1.cms.AttributeTable;
import org.bouncycastle.asn1.nist.NISTObjectIdentifiers;
import org.bouncycastle.asn1.pkcs.PKCSObjectIdentifiers;
import org.bouncycastle.asn1.pkcs.PrivateKeyInfo;
import org.bouncycastle.asn1.x500.X500Name;
import org.bouncycastle.asn1.x509.Extension;
import org.bouncycastle.asn1.x509.GeneralName;
import org.bouncycastle.asn1.x509.GeneralNames;
import org.bouncycastle.asn1.x509.IetfAttrSyntax;
import org.bouncycastle.asn1.x509.ObjectDigestInfo;
import org.bouncycastle.asn1.x509.RoleSyntax;
import org.bouncycastle.asn1.x509.Target;
import org.bouncycastle.asn1.x509.TargetInformation;
import org.bouncycastle.cert.AttributeCertificateHolder;
import org.bouncycastle.cert.AttributeCertificateIssuer;
import org.bouncycastle.cert.X509CertificateHolder;
import org.bouncycastle.cert.X509v2AttributeCertificateBuilder;
import org.bouncycastle.cert.jcajce.JcaX509CertificateConverter;
import org.bouncycastle.cert.jcajce.JcaX509CertificateHolder;
import org.bouncycastle.cert.jcajce.JcaX509ExtensionUtils;
import org.bouncycastle.cert.jcajce.JcaX509v3CertificateBuilder;
import org.bouncycastle.cms.CMSAlgorithm;
import org.bouncycastle.cms.CMSAuthEnvelopedDataGenerator;
import org.bouncycastle.cms.CMSEnvelopedDataGenerator;
import org.bouncycastle.cms.CMSProcessableByteArray;
import org.bouncycastle.cms.CMSSignedDataGenerator;
import org.bouncycastle.cms.SimpleAttributeTableGenerator;
import org.bouncycastle.cms.jcajce.JceCMSContentEncryptorBuilder;
import org.bouncycastle.cms.jcajce.JceKEKRecipientInfoGenerator;
import org.bouncycastle.cms.jcajce.JceKeyTransRecipientInfoGenerator;
import org.bouncycastle.jce.provider.BouncyCastleProvider;
import org.bouncycastle.operator.ContentSigner;
import org.bouncycastle.operator.OutputAEADEncryptor;
import org.bouncycastle.operator.jcajce.JcaContentSignerBuilder;
import org.bouncycastle.pkcs.PKCS8EncryptedPrivateKeyInfoBuilder;
import org.bouncycastle.pkcs.jcajce.JcaPKCS10CertificationRequestBuilder;
import org.bouncycastle.pkcs.jcajce.JcaPKCS8EncryptedPrivateKeyInfoBuilder;
import org.bouncycastle.pkcs.jcajce.JcePKCSPBEOutputEncryptorBuilder;
import org.bouncycastle.util.CollectionStore;

/** Makes the messages of BouncyCastle, in the folder that is given, with a line for each: see `make-bouncycastle`. */
public class BouncyCastle {
    static final String INFO = "der_pkix::PrivateKeyInfo", ATTRIBUTES = "der_pkix::AttributeCertificate";
    static final Date FROM = Date.from(Instant.parse("2026-11-29T12:00:00Z")), TO = Date.from(Instant.parse("2049-11-29T12:00:00Z"));
    static final X500Name ISSUER = new X500Name("C=SE, CN=Authority"), HOLDER = new X500Name("C=SE, CN=Holder");

    final File folder;
    final PrintWriter lines;
    KeyPair pair;
    X509Certificate certificate;

    BouncyCastle(File folder) throws IOException {
        this.folder = folder;
        this.lines = new PrintWriter(new File(folder, "messages.txt"), "UTF-8");
    }

    public static void main(String[] words) throws Exception {
        Security.addProvider(new BouncyCastleProvider());
        BouncyCastle all = new BouncyCastle(new File(words[0]));
        all.keys();
        all.signer();
        all.attributes();
        all.authenticated();
        all.refused();
        all.lines.close();
    }

    void keep(String name, byte[] data, String type, String how, String... parts) throws IOException {
        Files.write(new File(folder, name).toPath(), data);
        String path = "bouncycastle/" + name;
        lines.println(type + " " + path + " " + how);
        for (String part : parts) {
            String[] both = part.split(" ");
            lines.println(both[0] + " " + path + ":" + both[1] + " in that");
        }
    }

    static KeyPair pairOf(String algorithm) throws Exception {
        return KeyPairGenerator.getInstance(algorithm, "BC").generateKeyPair();
    }

    /** Keys with their public keys, bare, encrypted, and with an attribute. */
    void keys() throws Exception {
        for (String it : List.of("Ed25519", "Ed448", "X25519", "X448")) {
            keep("key-" + it.toLowerCase() + ".der", pairOf(it).getPrivate().getEncoded(), INFO, "a key of " + it + ": getEncoded");
        }
        PrivateKey key = pairOf("Ed25519").getPrivate();
        PrivateKeyInfo bare = PrivateKeyInfo.getInstance(key.getEncoded());
        org.bouncycastle.asn1.x509.Attribute name = new org.bouncycastle.asn1.x509.Attribute(
            PKCSObjectIdentifiers.pkcs_9_at_friendlyName, new DERSet(new DERBMPString("a key")));
        PrivateKeyInfo named = new PrivateKeyInfo(bare.getPrivateKeyAlgorithm(), bare.parsePrivateKey(), new DERSet(name), bare.getPublicKeyData().getBytes());
        keep("key-named.der", named.getEncoded("DER"), INFO, "PrivateKeyInfo with a friendlyName and a public key");
        PKCS8EncryptedPrivateKeyInfoBuilder builder = new JcaPKCS8EncryptedPrivateKeyInfoBuilder(key);
        byte[] encrypted = builder.build(new JcePKCSPBEOutputEncryptorBuilder(NISTObjectIdentifiers.id_aes256_CBC)
            .setProvider("BC").build("secret".toCharArray())).getEncoded();
        keep("key-encrypted.der", encrypted, "der_pkix::EncryptedPrivateKeyInfo", "PKCS8EncryptedPrivateKeyInfoBuilder with AES-256-CBC");
    }

    /** A pair of keys of RSA with a certificate, for what follows. */
    void signer() throws Exception {
        KeyPairGenerator generator = KeyPairGenerator.getInstance("RSA", "BC");
        generator.initialize(1024);
        pair = generator.generateKeyPair();
        ContentSigner signer = new JcaContentSignerBuilder("SHA256withRSA").setProvider("BC").build(pair.getPrivate());
        certificate = new JcaX509CertificateConverter().setProvider("BC").getCertificate(
            new JcaX509v3CertificateBuilder(ISSUER, BigInteger.valueOf(4711), FROM, TO, HOLDER, pair.getPublic()).build(signer));
        keep("certificate-holder.der", certificate.getEncoded(), "der_x509::Certificate", "JcaX509v3CertificateBuilder");
    }

    /** Certificates of attributes, whose holders are named in four ways. */
    void attributes() throws Exception {
        byte[] digest = MessageDigest.getInstance("SHA-256").digest(pair.getPublic().getEncoded());
        keep("attributes-certificate.der", attributes(new AttributeCertificateHolder(new JcaX509CertificateHolder(certificate)), false),
            ATTRIBUTES, "X509v2AttributeCertificateBuilder, the holder by issuer and serial number", "der_pkix::IetfAttrSyntax 30.330.130.31.30.");
        keep("attributes-number.der", attributes(new AttributeCertificateHolder(ISSUER, BigInteger.TEN), false),
            ATTRIBUTES, "the same by another serial number");
        keep("attributes-digest.der", attributes(new AttributeCertificateHolder(
            ObjectDigestInfo.publicKey, NISTObjectIdentifiers.id_sha256, null, digest), false), ATTRIBUTES, "the same, the holder by the digest of a key");
        keep("attributes-name.der", attributes(new AttributeCertificateHolder(HOLDER), true), ATTRIBUTES,
            "the same, the holder by name, with extensions", "der_pkix::TargetInformation 30.430.230.04", "der_pkix::RoleSyntax 30.330.30.31.30.",
            "der_pkix::IetfAttrSyntax 30.330.130.31.30.");
    }

    byte[] attributes(AttributeCertificateHolder holder, boolean more) throws Exception {
        X509v2AttributeCertificateBuilder builder = new X509v2AttributeCertificateBuilder(
            holder, new AttributeCertificateIssuer(ISSUER), BigInteger.ONE, FROM, TO);
        GeneralName role = new GeneralName(GeneralName.uniformResourceIdentifier, "urn:role:reader");
        GeneralNames authority = new GeneralNames(new GeneralName(ISSUER));
        builder.addAttribute(new ASN1ObjectIdentifier("2.5.4.72"), more ? new RoleSyntax(authority, role) : new RoleSyntax(role));
        DERSequence groups = new DERSequence(new ASN1Encodable[] {new DERUTF8String("readers"), new DERUTF8String("writers")});
        DERTaggedObject policy = new DERTaggedObject(false, 0, authority);
        builder.addAttribute(new ASN1ObjectIdentifier("1.3.6.1.5.5.7.10.4"), IetfAttrSyntax.getInstance(
            new DERSequence(more ? new ASN1Encodable[] {policy, groups} : new ASN1Encodable[] {groups})));
        if (more) {
            Target[] targets = {
                new Target(Target.targetName, new GeneralName(GeneralName.dNSName, "www.example.org")),
                new Target(Target.targetGroup, new GeneralName(GeneralName.registeredID, "1.2.3.4")),
            };
            builder.addExtension(Extension.authorityKeyIdentifier, false, new JcaX509ExtensionUtils().createAuthorityKeyIdentifier(pair.getPublic()));
            builder.addExtension(Extension.noRevAvail, false, DERNull.INSTANCE);
            builder.addExtension(Extension.targetInformation, true, new TargetInformation(targets));
        }
        ContentSigner signer = new JcaContentSignerBuilder("SHA256withRSA").setProvider("BC").build(pair.getPrivate());
        return builder.build(signer).toASN1Structure().getEncoded("DER");
    }

    /** Content that is encrypted and authenticated, without attributes and with some. */
    void authenticated() throws Exception {
        for (boolean more : List.of(false, true)) {
            CMSAuthEnvelopedDataGenerator generator = new CMSAuthEnvelopedDataGenerator();
            generator.addRecipientInfoGenerator(new JceKeyTransRecipientInfoGenerator(certificate).setProvider("BC"));
            if (more) {
                generator.setAuthenticatedAttributeGenerator(new SimpleAttributeTableGenerator(tableOf("of content", "1.2.3.4")));
                generator.setUnauthenticatedAttributeGenerator(new SimpleAttributeTableGenerator(tableOf("of no content", "1.2.3.5")));
            }
            OutputAEADEncryptor encryptor = (OutputAEADEncryptor) new JceCMSContentEncryptorBuilder(
                more ? CMSAlgorithm.AES256_GCM : CMSAlgorithm.AES128_GCM).setProvider("BC").build();
            byte[] data = generator.generate(new CMSProcessableByteArray("What is encrypted.".getBytes("US-ASCII")), encryptor)
                .toASN1Structure().getEncoded("DER");
            keep(more ? "authenticated-attributes.der" : "authenticated.der", data, "der_cms::ContentInfo",
                "CMSAuthEnvelopedDataGenerator" + (more ? " with attributes of both kinds" : ""), "der_cms::AuthEnvelopedData A0");
        }
    }

    static AttributeTable tableOf(String text, String identifier) {
        Hashtable<ASN1ObjectIdentifier, Attribute> all = new Hashtable<>();
        ASN1ObjectIdentifier type = new ASN1ObjectIdentifier(identifier);
        all.put(type, new Attribute(type, new DERSet(new DERUTF8String(text))));
        return new AttributeTable(all);
    }

    /** Messages that break a rule: a request without the empty set of attributes, and sets that aren't in order. */
    void refused() throws Exception {
        ContentSigner signer = new JcaContentSignerBuilder("SHA256withRSA").setProvider("BC").build(pair.getPrivate());
        JcaPKCS10CertificationRequestBuilder request = new JcaPKCS10CertificationRequestBuilder(HOLDER, pair.getPublic());
        request.setLeaveOffEmptyAttributes(true);
        keep("request-no-attributes.der", request.build(signer).getEncoded(), "der_pkix::CertificationRequest",
            "JcaPKCS10CertificationRequestBuilder with setLeaveOffEmptyAttributes(true)");
        CMSEnvelopedDataGenerator enveloped = new CMSEnvelopedDataGenerator();
        enveloped.addRecipientInfoGenerator(new JceKeyTransRecipientInfoGenerator(certificate).setProvider("BC"));
        enveloped.addRecipientInfoGenerator(new JceKEKRecipientInfoGenerator(new byte[] {1, 2, 3}, new SecretKeySpec(new byte[16], "AES")).setProvider("BC"));
        byte[] data = enveloped.generate(new CMSProcessableByteArray("What is encrypted.".getBytes("US-ASCII")),
            new JceCMSContentEncryptorBuilder(CMSAlgorithm.AES128_CBC).setProvider("BC").build()).toASN1Structure().getEncoded("DER");
        keep("enveloped-unsorted.der", data, "der_cms::ContentInfo", "CMSEnvelopedDataGenerator with recipients of two kinds: getEncoded(\"DER\")",
            "der_cms::EnvelopedData A0");
        CMSSignedDataGenerator signed = new CMSSignedDataGenerator();
        X509CertificateHolder first = new JcaX509CertificateHolder(certificate);
        X509CertificateHolder second = new JcaX509v3CertificateBuilder(ISSUER, BigInteger.ONE, FROM, TO, HOLDER, pair.getPublic()).build(signer);
        signed.addCertificates(new CollectionStore<>(List.of(first, second)));
        keep("certificates-unsorted.der", signed.generate(new CMSProcessableByteArray("What is signed.".getBytes("US-ASCII")), true)
            .toASN1Structure().getEncoded("DL"), "der_cms::ContentInfo", "CMSSignedDataGenerator with two certificates: getEncoded(\"DL\")",
            "der_cms::SignedData A0");
    }
}
