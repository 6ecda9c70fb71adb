#include "languages.h"

#include <string.h>
#include <strings.h>

#include "stem.h"

const struct language languages[LANGUAGES] = {
    { "en", "English", "Hold the picture still", "The picture's text", "struck out", "graphics",
      "The picture shows no text.",
      "All pages", "The board's papers give no aspect: here a dot is a square pixel.",
      "They give no rate either: 50 fields a second are shown." },
    { "de", "Deutsch", "Bild anhalten", "Text des Bildes", "gestrichen", "Grafik",
      "Das Bild zeigt keinen Text.",
      "Alle Seiten", "Die Unterlagen der Karte nennen kein Seitenverhältnis: Ein Punkt ist hier ein Quadrat.",
      "Sie nennen auch keine Bildfolge: Gezeigt werden 50 Felder in der Sekunde." },
    { "fr", "Français", "Arrêter le clignotement", "Texte de l’image", "barré", "graphique",
      "L’image ne montre pas de texte.",
      "Toutes les pages", "Les documents de la carte ne donnent pas de proportions : ici, un point est un pixel carré.",
      "Ils ne donnent pas non plus de fréquence : 50 trames par seconde sont montrées." },
    { "it", "Italiano", "Ferma l’immagine", "Testo dell’immagine", "barrato", "grafica",
      "L’immagine non mostra testo.",
      "Tutte le pagine", "I documenti della scheda non indicano le proporzioni: qui un punto è un pixel quadrato.",
      "Non indicano nemmeno la frequenza: si mostrano 50 quadri al secondo." },
    { "sl", "Slovenščina", "Ustavi sliko", "Besedilo slike", "prečrtano", "grafika",
      "Slika ne kaže besedila.",
      "Vse strani", "Listine plošče ne navajajo razmerja stranic: tu je pika kvadratna slikovna točka.",
      "Tudi hitrosti ne navajajo: prikazanih je 50 polj na sekundo." },
};

const struct language *const english = &languages[0];

const struct language *language_named(const char *code, size_t length)
{
    for (int i = 0; i < LANGUAGES; i++)
        if (length == strlen(languages[i].code) && strncasecmp(code, languages[i].code, length) == 0)
            return &languages[i];
    return NULL;
}

const struct language *language_of(const char *file)
{
    char stem[STEM];

    stem_of(file, stem);
    size_t end = strlen(stem), begin = end;
    while (begin > 0 && strchr("-_", stem[begin - 1]) == NULL)
        begin--;
    const struct language *first = language_named(stem, strcspn(stem, "-_"));
    return first != NULL ? first : language_named(stem + begin, end - begin);
}
