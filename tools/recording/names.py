"""The one table of names: what a script (docs/SCRIPT.md) calls what AT-SPI and Chromium's DevTools have.

A row is `NAME IN A SCRIPT | names in AT-SPI | names in DevTools`. Where two rows have a name of AT-SPI or DevTools in common, the reader
of that source says which of them is meant.
"""

ROLE_TABLE = """
Unknown                | unknown invalid extended                                   |
Window                 | frame window                                               |
ScrollView             | scroll-pane viewport                                       |
Paragraph              | paragraph                                                  | paragraph
GenericContainer       | panel filler redundant-object                              | generic none presentation
GenericContainer       |                                                            | LayoutTable LayoutTableRow LayoutTableCell
Label                  | label static accelerator-label                             | StaticText LabelText Legend
Image                  | image icon image-map animation desktop-icon                | image img
Document               | document-frame document-text document-email page           | document
Document               | document-presentation document-spreadsheet                 |
Terminal               | terminal                                                   |
TextInput              | entry text editbar                                         | textbox
SearchInput            |                                                            | searchbox
DateInput              | date-editor                                                | Date
DateTimeInput          |                                                            | DateTime
TimeInput              |                                                            | InputTime
PasswordInput          | password-text                                              |
EditableComboBox       | autocomplete                                               |
SpinButton             | spin-button                                                | spinbutton
ListBox                | list-box                                                   | listbox
TabList                | page-tab-list                                              | tablist
AlertDialog            |                                                            | alertdialog
Dialog                 | dialog file-chooser font-chooser                           | dialog
ComboBox               | combo-box                                                  | combobox ComboBoxSelect
DisclosureTriangle     |                                                            | DisclosureTriangle DisclosureTriangleGrouped
TreeItem               | tree-item                                                  | treeitem
Button                 | push-button push-button-menu toggle-button                 | button
CheckBox               | check-box                                                  | checkbox
Link                   | link                                                       | link
MenuItem               | menu-item menu tearoff-menu-item                           | menuitem
MenuItemCheckBox       | check-menu-item                                            | menuitemcheckbox
MenuItemRadio          | radio-menu-item                                            | menuitemradio
RadioButton            | radio-button                                               | radio
ColorWell              | color-chooser                                              | ColorWell
Grid                   | calendar                                                   | grid
MenuListPopup          |                                                            | MenuListPopup
RadioGroup             |                                                            | radiogroup
Slider                 | slider dial rating                                         | slider
Switch                 |                                                            | switch
TreeGrid               | tree-table                                                 | treegrid
Article                | article                                                    | article
Definition             | definition                                                 | definition
DescriptionList        | description-list                                           | DescriptionList
List                   | list                                                       | list
ListItem               | list-item                                                  | listitem
ProgressIndicator      | progress-bar                                               | progressbar
RootWebArea            | document-web                                               | RootWebArea
Term                   |                                                            | term
Timer                  | timer                                                      | timer
Toolbar                | tool-bar                                                   | toolbar
Tooltip                | tool-tip                                                   | tooltip
Comment                | comment                                                    | comment
Tab                    | page-tab                                                   | tab
ListBoxOption          |                                                            | option
MenuListOption         |                                                            | MenuListOption
Menu                   | popup-menu                                                 | menu
MenuBar                | menu-bar                                                   | menubar
Tree                   | tree                                                       | tree
Abbr                   |                                                            | Abbr
Alert                  | alert notification info-bar                                | alert
Application            | application                                                | application
Audio                  | audio                                                      | Audio
Banner                 |                                                            | banner
Blockquote             | block-quote                                                | blockquote
Canvas                 | canvas drawing-area                                        | Canvas
Caption                | caption                                                    | caption Figcaption
Cell                   | table-cell                                                 | cell
Code                   |                                                            | code
ColumnHeader           | column-header table-column-header                          | columnheader
Complementary          |                                                            | complementary
ContentDeletion        | content-deletion                                           | deletion
ContentInfo            |                                                            | contentinfo
ContentInsertion       | content-insertion                                          | insertion
DescriptionListDetail  | description-value                                          | DescriptionListDetail
DescriptionListTerm    | description-term                                           | DescriptionListTerm
Details                |                                                            | Details
EmbeddedObject         | embedded                                                   | EmbeddedObject PluginObject
Emphasis               |                                                            | emphasis
Feed                   |                                                            | feed
Figure                 | chart                                                      | figure
Footer                 | footer                                                     | Footer
Form                   | form                                                       | form
GridCell               |                                                            | gridcell
Group                  | grouping                                                   | group
Header                 | header                                                     | Header
Heading                | heading                                                    | heading
Iframe                 | internal-frame                                             | Iframe IframePresentational
LineBreak              |                                                            | LineBreak
ListMarker             |                                                            | ListMarker
Log                    | log                                                        | log
Main                   |                                                            | main
Mark                   | mark                                                       | mark
Marquee                | marquee                                                    | marquee
Math                   | math                                                       | math MathMLMath
Meter                  | level-bar                                                  | meter
Navigation             |                                                            | navigation
Note                   | footnote                                                   | note
Pane                   | glass-pane layered-pane root-pane option-pane split-pane   |
Pre                    |                                                            | Pre
Region                 |                                                            | region
Row                    | table-row                                                  | row
RowGroup               |                                                            | rowgroup
RowHeader              | row-header table-row-header                                | rowheader
Ruby                   |                                                            | Ruby
ScrollBar              | scroll-bar                                                 | scrollbar
Search                 |                                                            | search
Section                | section                                                    | Section
Splitter               | separator                                                  | separator
Status                 | status-bar                                                 | status
Strong                 |                                                            | strong
Suggestion             | suggestion                                                 | suggestion
SvgRoot                |                                                            | SvgRoot
TabPanel               |                                                            | tabpanel
Table                  | table                                                      | table
Time                   |                                                            | time Time
TitleBar               | title-bar                                                  |
Video                  | video                                                      | Video
WebView                |                                                            | WebView
"""

# Landmarks: AT-SPI has the role `landmark` for each, and these words in the attribute `xml-roles`.
LANDMARKS = dict(banner="Banner", complementary="Complementary", contentinfo="ContentInfo", form="Form", main="Main")
LANDMARKS.update(navigation="Navigation", region="Region", search="Search")

# Roles that a script sends by a number (docs/SCRIPT.md, "Roles").
NUMBERED = dict(Abbr=256, Alert=257, Application=258, Audio=259, Banner=260, Blockquote=261, Canvas=262, Caption=263, Cell=265, Code=266)
NUMBERED.update(ColumnHeader=267, Complementary=268, ContentDeletion=269, ContentInfo=270, ContentInsertion=271, DescriptionListDetail=272)
NUMBERED.update(DescriptionListTerm=273, Details=274, EmbeddedObject=313, Emphasis=314, Feed=315, Figure=317, Footer=319, Form=321)
NUMBERED.update(GridCell=324, Group=325, Header=326, Heading=328, Iframe=329, LineBreak=337, ListMarker=338, Log=339, Main=340, Mark=341)
NUMBERED.update(Marquee=342, Math=343, Meter=345, Navigation=346, Note=347, Pane=348, Pre=352, Region=353, Row=354, RowGroup=355)
NUMBERED.update(RowHeader=356, Ruby=357, ScrollBar=359, Search=360, Section=361, Splitter=364, Status=365, Strong=366, Suggestion=367)
NUMBERED.update(SvgRoot=368, TabPanel=369, Table=370, Time=371, TitleBar=372, Video=374, WebView=375)

# `FIELD | state in AT-SPI | property in DevTools`: flags.
FLAG_TABLE = """
disabled        |                 | disabled
required        | required        | required
modal           | modal           | modal
busy            | busy            | busy
multiselectable | multiselectable | multiselectable
"""

# `FIELD | attributes in AT-SPI | attributes of the element`: texts.
TEXT_TABLE = """
placeholder              | placeholder-text placeholder | placeholder aria-placeholder
html_id                  | id                           | id
class_name               | class                        | class
role_description         | roledescription              | aria-roledescription
row_index_text           | rowindextext                 | aria-rowindextext
column_index_text        | colindextext                 | aria-colindextext
braille_label            | braillelabel                 | aria-braillelabel
braille_role_description | brailleroledescription       | aria-brailleroledescription
"""

# `FIELD | attribute in AT-SPI | what DevTools has | the words of a script, which both have too`.
CHOICE_TABLE = """
live           | live     | live        | off polite assertive
sort_direction | sort     | aria-sort   | ascending descending other
aria_current   | current  | aria-current | true page step location date time
has_popup      | haspopup | hasPopup    | menu listbox tree grid dialog
"""

# AT-SPI's names by their numbers.
ATSPI_ROLES = """
invalid accelerator-label alert animation arrow calendar canvas check-box check-menu-item color-chooser column-header combo-box
date-editor desktop-icon desktop-frame dial dialog directory-pane drawing-area file-chooser filler focus-traversable font-chooser frame
glass-pane html-container icon image internal-frame label layered-pane list list-item menu menu-bar menu-item option-pane page-tab
page-tab-list panel password-text popup-menu progress-bar push-button radio-button radio-menu-item root-pane row-header scroll-bar
scroll-pane separator slider spin-button split-pane status-bar table table-cell table-column-header table-row-header tearoff-menu-item
terminal text toggle-button tool-bar tool-tip tree tree-table unknown viewport window extended header footer paragraph ruler application
autocomplete editbar embedded entry chart caption document-frame heading page section redundant-object form link input-method-window
table-row tree-item document-spreadsheet document-presentation document-text document-web document-email comment list-box grouping
image-map notification info-bar level-bar title-bar block-quote audio video definition article landmark log marquee math rating timer
static math-fraction math-root subscript superscript description-list description-term description-value footnote content-deletion
content-insertion mark suggestion push-button-menu switch
""".split()
ATSPI_STATES = """
invalid active armed busy checked collapsed defunct editable enabled expandable expanded focusable focused has-tooltip horizontal
iconified modal multi-line multiselectable opaque pressed resizable selectable selected sensitive showing single-line stale transient
vertical visible manages-descendants indeterminate required truncated animated invalid-entry supports-autocompletion selectable-text
is-default visited checkable has-popup read-only
""".split()
ATSPI_RELATIONS = """
null label-for labelled-by controller-for controlled-by member-of tooltip-for node-child-of node-parent-of extended flows-to flows-from
subwindow-of embeds embedded-by popup-for parent-window-of description-for described-by details details-for error-message error-for
""".split()


def rows(table):
    """The rows of a table: each cell as a list of words."""
    for line in table.strip().splitlines():
        yield [cell.split() for cell in line.split("|")]


def by_column(table, column):
    """What the first column has for each word of another one."""
    return {word: cells[0][0] for cells in rows(table) for word in cells[column]}


ROLE_OF_ATSPI, ROLE_OF_DEVTOOLS = by_column(ROLE_TABLE, 1), by_column(ROLE_TABLE, 2)
FLAG_OF_ATSPI, FLAG_OF_DEVTOOLS = by_column(FLAG_TABLE, 1), by_column(FLAG_TABLE, 2)
TEXT_OF_ATSPI, TEXT_OF_DEVTOOLS = by_column(TEXT_TABLE, 1), by_column(TEXT_TABLE, 2)
CHOICE_OF_ATSPI, CHOICE_OF_DEVTOOLS = by_column(CHOICE_TABLE, 1), by_column(CHOICE_TABLE, 2)
CHOICES = {cells[0][0]: cells[3] for cells in rows(CHOICE_TABLE)}


def role_word(name):
    """A role as a script has it: by its name, or by its number."""
    return f"Other({NUMBERED[name]})" if name in NUMBERED else name
