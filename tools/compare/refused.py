"""Texts outside the grammar of selectors. `¦` stands before the first byte that can't continue, or at the end of a
text that ends too soon; it is not part of the text. The places were set by hand, from docs/SPECIFICATION.md, Selectors
as text."""

# XPath 1.0 that the grammar leaves out.
LEFT_OUT = {
    "numbers": ["¦1", "a[¦1]", "a[¦1.5]", "a[.¦5]", "a[¦2 > 1]", "¦1 + 1", "a[b ¦+ 1]", "a[b ¦- 1]", "a[b ¦* 2]",
                "a[b ¦div 2]", "a[b ¦mod 2]", "a[¦-b]", "¦-a", "a ¦+ b", "a[b and ¦1]", "a[¦1 and b]"],
    "strings": ["¦'x'", "a[¦'x']", 'a[¦"x"]', "a[b or ¦'x']", "processing-instruction('¦')",
                "processing-instruction('a¦ b')", "processing-instruction('¦3d')", 'processing-instruction("¦*")',
                "processing-instruction('¦ a')"],
    "comparisons": ["a ¦= b", "a[b¦=c]", "a[b¦!=c]", "a[b¦<c]", "a[b¦>c]", "a[b ¦<= c]", "a[b ¦>= c]", 'a[@b¦="1"]',
                    'a[.¦="x"]', "a[(b)¦=c]", "a[not(b)¦=c]", "a[true()¦=b]", "a[b¦='x']", "a[/¦=b]"],
    "positions": ["a[position¦()=1]", "a[last¦()]", "a[position¦() < 3]", "a[¦3]/b", "a[last¦() - 1]", "//a[¦1]",
                  "a[b][¦2]", "a[not(position¦() = 1)]"],
    "variables": ["¦$x", "¦$x/a", "a[¦$x]", "a[b¦=$x]", "a|¦$x", "a[not(¦$x)]"],
    "prefixes": ["x¦:a", "x¦:*", "child::x¦:a", "@x¦:a", "a/x¦:b/c", "//x¦:a", "a[x¦:b]", "child:¦b", "self:¦*",
                 "a/descendant:¦b", "x¦:f(a)"],
    "the namespace axis": ["namespace¦::a", "namespace¦::*", "a/namespace¦::node()", "a[namespace¦::x]"],
    "other functions": ["count¦(a)", "a[count¦(b)]", "id¦('x')", "id¦('x')/a", "a[name¦()='b']", "a[local-name¦()]",
                        "a[contains¦(b, 'c')]", "a[starts-with¦(., 'c')]", "a[string-length¦() > 2]",
                        "a[normalize-space¦(.)]", "a[string¦(b)]", "a[boolean¦(b)]", "a[number¦(b)]", "a[sum¦(b) > 2]",
                        "a[lang¦('en')]", "a[concat¦('a', 'b')]", "a[substring¦('abc', 2)]",
                        "a[translate¦(b, 'x', 'y')]", "a[floor¦(b)]", "a[ceiling¦(b)]", "a[round¦(b)]",
                        "a[namespace-uri¦()]", "a[tru¦(b)]", "a[nots¦(b)]", "parent¦()", "a[not(¦)]"],
    "expressions that are no path": ["true¦()", "false ¦()", "not¦(a)", "a ¦and b", "a ¦or b", "a[b]¦or c", "¦(a)", "¦(a)[b]",
                                     "¦(a|b)/c", "a|¦(b)"],
    "groups as part of a path": ["a[(b)¦[c]]", "a[(b)¦/c]", "a[(b)¦//c]", "a[(b)¦|c]", "a[b|¦(c)]", "a[(b|c)¦/d]",
                                 "a[true()¦|b]", "a[not(b)¦[c]]", "a[((b))¦/c]"],
}

# Texts that are no XPath 1.0 either, `§` between them.
NO_XPATH = """
¦§a/¦§a//¦§//¦§a[¦§a[b¦§a[b ¦§a[b and¦§a[b an¦§a[b or ¦§a[not¦§a[not(¦§a[not(b¦§a[not(b)¦§a[(b¦§a[true(¦§a[true()¦§a|¦
child::¦§child:¦§@¦§a/@¦§a/child::¦§text(¦§processing-instruction(¦§processing-instruction('¦§processing-instruction('a¦
processing-instruction('a'¦§a[b][¦§a[b[c]¦§a[b or c[d¦§/a/¦§a[/¦§..//¦§descendant-or-self::¦§comment(¦§node( ¦§self ::¦
¦]§¦)§a¦)§a¦]§a//¦/b§/ ¦/a§//¦/a§a/ ¦/b§a/¦[b]§a//¦[b]§@¦@a§@¦.§@child¦::a§@¦/a§@ ¦@a§a[¦]§a[ ¦]§a[b]¦]§a ¦b§a ¦.§a¦$
a¦#§a¦,b§a¦;§¦#a§¦%§a¦&b§a¦!b§¦!a§¦9a§a/¦9§a/¦-b§child::¦9§child::child¦::a§self::¦.§self::¦..§self::¦@a§self::¦/a§¦|a
child ¦a§child:¦ :a§child::¦:a§foo¦::a§Child¦::a§decendant¦::a§text(¦a)§text()¦()§node(¦'a')§comment(¦"x")§a|¦|b§a|¦]
processing-instruction(¦a)§processing-instruction('a'¦, 'b')§processing-instruction('a¦")§processing-instruction('a' ¦'b')
*¦*§* ¦*§*¦a§*¦:a§*¦()§..¦.§.¦a§..¦a§..¦*§.¦(a)§/¦(a)§/¦)§/¦]§/¦[a]§//¦]§a[/¦[b]]§a[//¦]§a[.¦b]§a[b ¦c]§a[b an¦ c]§/|¦
a[b an¦y c]§a[b o¦f c]§a[b and ¦]§a[b and and ¦c]§a[or or ¦]§a[(b)¦c]§a/¦|b
a[(b)¦(c)]§a[(¦)]§a[((b)¦]§a[(b¦]§a[b¦)]§a[not ¦b]§a[not(b¦]§a[not(b) ¦c]§a[not(b)¦c]§//¦|a
a[not ¦not(b)]§a[true ¦b]§a[true()¦true()]§a[true() ¦b]§a[true()¦()]§a[b¦,c]§a[b¦;c]§a[b¦{c}]§¦{a}§a¦{b}§¦\\a§a¦\\b§¦~a
a¦^b§¦`a§¦?a§a¦?§a/¦?b§¦+a§a¦+§a¦=§a¦<§¦=a§¦<a>§a/¦<b>§a[¦<b]§a[b]¦b§a[b]¦.§a[b]¦*§a[b]¦@c§a[b]¦::c§a¦@b§a ¦@b§a/b ¦c
a/b¦@c§a[/ or ¦b]§a[/or ¦b]§a[b|¦]§a[b]|¦[c]§.¦[a]§..¦[a]§a[..¦[b]]§a | ¦
""".strip("\n").replace("\n", "§").split("§")

# An operator and a name without a space: one name by the rule of the longest token (XPath 1.0, 3.7), though engines take
# these for two tokens.
ONE_TOKEN = ["a[b and¦c]", "a[.or¦.]", "a[*or¦.]", "a[(b)or¦c]", "a[not(b)and¦c]", "a[b or¦b]"]

# A 33rd level: of `not`, of groups, of predicates, and of all in turn; a name that isn't ASCII.
TOO_FAR = ["a[" + "not(" * 31 + "not¦(b" + ")" * 32 + "]", "a[" + "(" * 31 + "¦(b" + ")" * 32 + "]",
           "a[" * 32 + "a¦[b" + "]" * 33, "a[" + "not(a[(" * 10 + "not(" + "¦(b" + "))" + ")])" * 10 + "]",
           "¦é", "a¦é", "a/b¦é[c]", "a[¦ü]"]
