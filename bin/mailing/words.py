"""What the page says, in English and in Italian."""

ENGLISH = {
    "title": "Mailbox of {}",
    "again": "Look again",
    "mailbox": "Mailbox",
    "book": "What became of your messages",
    "new": "A new message",
    "to": "To",
    "cc": "Cc",
    "subject": "Subject",
    "text": "Text",
    "hand-in": "Hand it in",
    "foot": "A client of the provider at 127.0.0.1:8125: it shows what that says, and proves nothing. Each look carries the "
    "messages a step on. All times are by the clock of this machine ({}).",
    "kind": "kind",
    "who": "who",
    "when": "when",
    "message": "message",
    "recipient": "recipient",
    "fate": "what became of it",
    "nothing": "Nothing yet.",
    "no-message": "No message yet.",
    "no-subject": "(no subject)",
    "is-to": "to {}",
    "is-from": "from {}",
    "copy": "copy",
    "accepted-at": "accepted {}",
    "delivered": "delivered {}",
    "refused": "not delivered, {}: {}",
    "noticed": "not delivered in time: you had notice {}",
    "warned": "nothing heard for 12 hours: you were warned {}",
    "charged": "on its way; taken in charge {}",
    "on-its-way": "on its way",
    "external": "external: it isn't certified mail, and no receipt will come",
    "opened": "Opened",
    "head": "Its head",
    "certificate": "What the certificate says",
    "original": "The original",
    "source": "All of it as it came",
    "save-letter": "Save it as it came",
    "save-original": "Save the original",
    "save-file": "Save {}",
    "a-part": "a part",
    "bytes": "{}, {:,} bytes",
    "date": "date",
    "from": "from",
    "tipo": "kind",
    "errore": "error",
    "mittente": "sender",
    "destinatari": "recipient",
    "esterno": "external recipient",
    "risposte": "answers to",
    "oggetto": "subject",
    "gestore-emittente": "provider",
    "moment": "day and time",
    "identificativo": "message",
    "msgid": "Message-ID",
    "consegna": "delivery to",
    "ricezione": "taken in charge for",
    "errore-esteso": "why",
    "taken": "Accepted as {}.",
    "not-accepted": "Not accepted: {}.",
    "no-key": "The key is missing.",
    "wrong-key": "The key is wrong.",
    "not-there": "There is no such account or item.",
    "answers": "The service answers {}: {}",
    "silent": "The service at port {} doesn't answer: {}. What you wrote is kept below; look again later.",
    "no-address": "Not an address: {}",
    "no-recipient": "There is no recipient.",
    "too-long": "The form is too long.",
    "kinds": {
        "envelope": "message",
        "anomaly": "not certified mail",
        "acceptance": "receipt: accepted",
        "non-acceptance": "notice: not accepted",
        "delivery": "receipt: delivered",
        "delivery-error": "notice: not delivered",
        "warning": "notice: nothing heard for 12 hours",
        "notice": "notice: not delivered within a day",
        "late-notice": "notice: not delivered within a day",
    },
    "causes": {
        "head": "its head is wrong",
        "from": "its sender isn't one address",
        "to": "its recipients are no addresses",
        "reverse-path": "it names another sender",
        "forward-path": "its recipients aren't those of its head",
        "bcc": "blind copies aren't allowed",
        "size": "it is too long",
        "virus": "a virus was found",
        "no-mailbox": "nobody has the address",
        "mailbox-full": "the mailbox is full",
    },
}
ITALIAN = {
    "title": "Casella di {}",
    "again": "Aggiorna",
    "mailbox": "Casella",
    "book": "Che cosa è stato dei tuoi messaggi",
    "new": "Nuovo messaggio",
    "to": "A",
    "cc": "Cc",
    "subject": "Oggetto",
    "text": "Testo",
    "hand-in": "Consegna al gestore",
    "foot": "Un client del gestore a 127.0.0.1:8125: mostra quello che dice, e non prova nulla. Ogni sguardo porta avanti i "
    "messaggi di un passo. Tutti gli orari sono dell'orologio di questa macchina ({}).",
    "kind": "tipo",
    "who": "chi",
    "when": "quando",
    "message": "messaggio",
    "recipient": "destinatario",
    "fate": "esito",
    "nothing": "Ancora niente.",
    "no-message": "Ancora nessun messaggio.",
    "no-subject": "(senza oggetto)",
    "is-to": "a {}",
    "is-from": "da {}",
    "copy": "in copia",
    "accepted-at": "accettato {}",
    "delivered": "consegnato {}",
    "refused": "non consegnato, {}: {}",
    "noticed": "non consegnato in tempo: avviso {}",
    "warned": "nessuna notizia per 12 ore: preavviso {}",
    "charged": "in viaggio; preso in carico {}",
    "on-its-way": "in viaggio",
    "external": "esterno: non è posta certificata, e non arriverà nessuna ricevuta",
    "opened": "Aperto",
    "head": "L'intestazione",
    "certificate": "Che cosa dicono i dati di certificazione",
    "original": "L'originale",
    "source": "Tutto com'è arrivato",
    "save-letter": "Salva com'è arrivato",
    "save-original": "Salva l'originale",
    "save-file": "Salva {}",
    "a-part": "una parte",
    "bytes": "{}, {:,} byte",
    "date": "data",
    "from": "da",
    "tipo": "tipo",
    "errore": "errore",
    "mittente": "mittente",
    "destinatari": "destinatario",
    "esterno": "destinatario esterno",
    "risposte": "risposte a",
    "oggetto": "oggetto",
    "gestore-emittente": "gestore",
    "moment": "giorno e ora",
    "identificativo": "messaggio",
    "msgid": "Message-ID",
    "consegna": "consegna a",
    "ricezione": "preso in carico per",
    "errore-esteso": "perché",
    "taken": "Accettato come {}.",
    "not-accepted": "Non accettato: {}.",
    "no-key": "Manca la chiave.",
    "wrong-key": "La chiave è sbagliata.",
    "not-there": "Non c'è questa casella o questo messaggio.",
    "answers": "Il servizio risponde {}: {}",
    "silent": "Il servizio alla porta {} non risponde: {}. Quello che hai scritto resta qui sotto; riprova più tardi.",
    "no-address": "Non è un indirizzo: {}",
    "no-recipient": "Manca il destinatario.",
    "too-long": "Il modulo è troppo lungo.",
    "kinds": {
        "envelope": "messaggio",
        "anomaly": "non di posta certificata",
        "acceptance": "ricevuta di accettazione",
        "non-acceptance": "avviso di non accettazione",
        "delivery": "ricevuta di avvenuta consegna",
        "delivery-error": "avviso di mancata consegna",
        "warning": "preavviso: nessuna notizia per 12 ore",
        "notice": "avviso di mancata consegna entro un giorno",
        "late-notice": "avviso di mancata consegna entro un giorno",
    },
    "causes": {
        "head": "la sua intestazione è sbagliata",
        "from": "il mittente non è un solo indirizzo",
        "to": "i destinatari non sono indirizzi",
        "reverse-path": "nomina un altro mittente",
        "forward-path": "i destinatari non sono quelli dell'intestazione",
        "bcc": "le copie nascoste non sono ammesse",
        "size": "è troppo lungo",
        "virus": "è stato trovato un virus",
        "no-mailbox": "nessuno ha l'indirizzo",
        "mailbox-full": "la casella è piena",
    },
}
LANGUAGES = {"en": ENGLISH, "it": ITALIAN}


class Words:
    """What is said in a language."""

    def __init__(self, language):
        self.language, self.texts = language, LANGUAGES[language]

    def __call__(self, key, *values):
        return self.texts[key].format(*values)

    def knows(self, key):
        return isinstance(self.texts.get(key), str)

    def of(self, group, key):
        return self.texts[group].get(key, key)

    def refusal(self, why):
        if why.word == "not-accepted":
            return self("not-accepted", self.of("causes", why.values[0]))
        return self(why.word, *why.values)


def wanted(field):
    """The words in the language that a browser wants most, as its field Accept-Language says."""
    choices = []
    for place, one in enumerate((field or "").split(",")):
        tag, _, weight = one.strip().partition(";q=")
        try:
            choices.append((-float(weight or 1), place, tag.split("-")[0].lower()))
        except ValueError:
            continue
    return Words(next((tag for weight, _, tag in sorted(choices) if tag in LANGUAGES and weight), "en"))
