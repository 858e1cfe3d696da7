/// One word for each case of the letter rules that a word can take, by edition 1 and under no limit: the row of cases (A for the vowels
/// and Y, rest for the bytes outside A to Z), the case's number in it, and a word that takes it at one of its visits. They are rivers and
/// places that a gauge list may have, or the examples that the rules were made for. No word takes cases 5 and 7 of J, 1 of R, 15 of S
/// and 4 of X.
#[rustfmt::skip]
pub const EXAMPLES: &[(&str, usize, &str)] = &[
    ("rest", 1, "Rio Grande"),
    ("A", 1, "Avon"), ("A", 2, "Loire"),
    ("B", 1, "Hubbard"), ("B", 2, "Benue"),
    ("C", 1, "Salzach"), ("C", 2, "Caesar"), ("C", 3, "Michael"), ("C", 4, "Chemnitz"), ("C", 5, "McHenry"), ("C", 6, "Ardeche"),
    ("C", 7, "Chesapeake"), ("C", 8, "Czerny"), ("C", 9, "focaccia"), ("C", 10, "accident"), ("C", 11, "bellocchio"),
    ("C", 12, "Bacchus"), ("C", 13, "Neckar"), ("C", 14, "Valencia"), ("C", 15, "Cimarron"), ("C", 16, "Mac Gregor"),
    ("C", 17, "McClelland"), ("C", 18, "Colorado"),
    ("D", 1, "Bridge"), ("D", 2, "Edgar"), ("D", 3, "Irrawaddy"), ("D", 4, "Danube"),
    ("F", 1, "Liffey"), ("F", 2, "Fraser"),
    ("G", 1, "Pittsburgh"), ("G", 2, "Ghibli"), ("G", 3, "Ghent"), ("G", 4, "Bighorn"), ("G", 5, "Loughrea"), ("G", 6, "Lough Neagh"),
    ("G", 7, "Isle of Wight"), ("G", 8, "Agnes"), ("G", 9, "Dordogne"), ("G", 10, "Wagner"), ("G", 11, "Tagliamento"),
    ("G", 12, "Gila"), ("G", 13, "Bourget"), ("G", 14, "Rogier"), ("G", 15, "Ganges"), ("G", 16, "Agger"), ("G", 17, "Garonne"),
    ("H", 1, "Ohio"), ("H", 2, "Ahr"),
    ("J", 1, "San Jacinto"), ("J", 2, "Joseph"), ("J", 3, "Jjigae"), ("J", 4, "Jordan"), ("J", 6, "Navajo"), ("J", 8, "Sutlej"),
    ("J", 9, "Ujjain"), ("J", 10, "Tijuana"), ("J", 11, "Dakjjim"), ("J", 12, "Ljubljana"),
    ("K", 1, "Hokkaido"), ("K", 2, "Klamath"),
    ("L", 1, "Umatilla"), ("L", 2, "Willamette"), ("L", 3, "Elbe"),
    ("M", 1, "Humber"), ("M", 2, "Main"),
    ("N", 1, "Inn"), ("N", 2, "Nile"),
    ("P", 1, "Euphrates"), ("P", 2, "Mississippi"), ("P", 3, "Po"),
    ("Q", 1, "Saqqara"), ("Q", 2, "Susquehanna"),
    ("R", 2, "Greenbrier"), ("R", 3, "Torrens"), ("R", 4, "Rhone"),
    ("S", 1, "Carlisle"), ("S", 2, "Sugar Creek"), ("S", 3, "Hildesheim"), ("S", 4, "Shannon"), ("S", 5, "Sioux Lookout"),
    ("S", 6, "Sioux Falls"), ("S", 7, "Tisza"), ("S", 8, "Snake"), ("S", 9, "Schermerhorn"), ("S", 10, "Schuylkill"),
    ("S", 11, "Schlei"), ("S", 12, "Deschutes"), ("S", 13, "Scioto"), ("S", 14, "Athabasca"), ("S", 16, "Illinois"),
    ("S", 17, "Reuss"), ("S", 18, "Severn"),
    ("T", 1, "Itchen"), ("T", 2, "Thames"), ("T", 3, "Forth"), ("T", 4, "Ottawa"), ("T", 5, "Tees"),
    ("V", 1, "Navvy"), ("V", 2, "Volga"),
    ("W", 1, "Wainwright"), ("W", 2, "Weser"), ("W", 3, "White"), ("W", 4, "Narew"), ("W", 5, "Lowicz"), ("W", 6, "Iowa"),
    ("X", 1, "Xingu"), ("X", 2, "Excelsior"), ("X", 3, "Kalix"), ("X", 5, "Bordeaux"),
    ("Z", 1, "Zhujiang"), ("Z", 2, "Abruzzo"), ("Z", 3, "Kinzig"), ("Z", 4, "Drizzle"), ("Z", 5, "Zambezi"),
];
