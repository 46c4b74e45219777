"""What becomes of each setting of Avida here: the tables of tools/from-avida.

The names are those of Avida 2.14 and, where an older version had another one, that too. A value that has no effect in
this world is written as Avida's configuration has it, and numbers are compared as numbers.
"""

# The key of ours that a setting becomes, and what its number is.
#   size     a whole number between two bounds
#   ppm      a probability, which becomes parts per million
#   percent  a share from 0 to 1, which becomes percent
#   switch   0 or 1
# What needs more than a number is translated by a function of tools/from-avida: seed, death, least, greatest.
TRANSLATED = {
    "WORLD_X": ("width", "size", 1, 256),
    "WORLD_Y": ("height", "size", 1, 256),
    "RANDOM_SEED": ("seed", "seed"),
    "AVE_TIME_SLICE": ("average_slices", "size", 1, 1000),
    "DEATH_METHOD": ("death", "death"),
    "AGE_LIMIT": ("age_limit", "size", 1, 1000),
    "COPY_MUT_PROB": ("copy_error", "ppm"),
    "DIVIDE_INS_PROB": ("divide_insert", "ppm"),
    "DIVIDE_DEL_PROB": ("divide_delete", "ppm"),
    "DIV_MUT_PROB": ("site_point", "ppm"),
    "DIV_INS_PROB": ("site_insert", "ppm"),
    "DIV_DEL_PROB": ("site_delete", "ppm"),
    "PREFER_EMPTY": ("prefer_empty", "switch"),
    "REQUIRE_ALLOCATE": ("need_alloc", "switch"),
    "MIN_EXE_LINES": ("executed_percent", "percent"),
    "MIN_COPIED_LINES": ("copied_percent", "percent"),
    "MIN_GENOME_SIZE": ("least_length", "least"),
    "MAX_GENOME_SIZE": ("greatest_length", "greatest"),
}

OFF = ("0",)
# The values that this world has always, and what follows where the setting has another one.
FIXED = {
    "WORLD_GEOMETRY": (("2",), "the world here is always a torus"),
    "WORLD_Z": (("0", "1"), "the world here is always a torus"),
    "HARDWARE_TYPE": (OFF, "only the machine of the heads instruction set is here"),
    "POPULATION_CAP": (OFF, "nothing but the number of cells bounds the living here"),
    "POP_CAP_ELDEST": (OFF, "nothing but the number of cells bounds the living here"),
    "BIRTH_METHOD": (OFF, "a newborn is always placed in one of the eight neighbouring cells, at random"),
    "ALLOW_PARENT": (OFF, "a newborn never takes its parent's cell here"),
    "DEATH_PROB": (OFF, "nobody dies by chance here"),
    "AGE_DEVIATION": (OFF, "the age limit is the same for all here"),
    "ALLOC_METHOD": (OFF, "new memory is always nop-A here"),
    "DIVIDE_METHOD": (("1",), "a divide always resets the parent here"),
    "EPIGENETIC_METHOD": (OFF, "a newborn inherits no registers and stacks here"),
    "INHERIT_MERIT": (("1",), "a newborn always begins with its parent's new merit here"),
    "INHERIT_MULTITHREAD": (OFF, "an organism has one thread here"),
    "OFFSPRING_SIZE_RANGE": (("2",), "parent and child have from half to twice the letters of the parent's genome here"),
    "CHILD_SIZE_RANGE": (("2",), "parent and child have from half to twice the letters of the parent's genome here"),
    "SLICING_METHOD": (("2",), "each organism gets its exact share of the steps by merit here, without a random choice"),
    "BASE_MERIT_METHOD": (("4",), "merit always begins with the least of length, executed and copied here"),
    "DEFAULT_BONUS": (("1",), "the bonus always begins with 1 here"),
    "MERIT_DEFAULT_BONUS": (OFF, "the bonus begins anew in each gestation here"),
    "MERIT_BONUS_INST": (OFF, "no instruction has a bonus here"),
    "MERIT_BONUS_EFFECT": (OFF, "no instruction has a bonus here"),
    "MERIT_INC_APPLY_IMMEDIATE": (OFF, "merit changes only at a divide here"),
    "MERIT_GIVEN": (OFF, "no merit is given away here"),
    "MAX_CPU_THREADS": (("1",), "an organism has one thread here"),
    "THREAD_SLICING_METHOD": (OFF, "an organism has one thread here"),
    "NO_CPU_CYCLE_TIME": (OFF, "each instruction takes a step here"),
    "MAX_LABEL_EXE_SIZE": (("1",), "the first nop of a template is marked executed, and no more"),
    "FITNESS_METHOD": (OFF, "there is no fitness here, only merit and steps"),
    "FITNESS_VALLEY": (OFF, "merit has no valley here"),
    "TASK_REFRACTORY_PERIOD": (OFF, "a task is rewarded in each gestation here"),
    "REQUIRE_EXACT_COPY": (OFF, "a divide doesn't need an exact copy here"),
    "REQUIRE_SINGLE_REACTION": (OFF, "a divide needs no task here"),
    "REQUIRED_BONUS": (OFF, "a divide needs no bonus here"),
    "IMPLICIT_REPRO_BONUS": (OFF, "only h-divide makes a child here"),
    "IMPLICIT_REPRO_CPU_CYCLES": (OFF, "only h-divide makes a child here"),
    "IMPLICIT_REPRO_TIME": (OFF, "only h-divide makes a child here"),
    "IMPLICIT_REPRO_END": (OFF, "only h-divide makes a child here"),
    "MIN_CYCLES": (OFF, "a divide needs no least age here"),
    "JUV_PERIOD": (OFF, "a divide needs no least age here"),
    "FAIL_IMPLICIT": (OFF, "no child is refused for its errors here"),
    "RESET_INPUTS_ON_DIVIDE": (OFF, "an organism keeps its inputs for life here"),
    "DIVIDE_FAILURE_RESETS": (OFF, "a refused divide changes nothing here"),
    "MAX_UNIQUE_TASK_COUNT": (("-1",), "all nine tasks are rewarded here"),
    "FASTFORWARD_UPDATES": (OFF, "each update is run here"),
    "FASTFORWARD_NUM_ORGS": (OFF, "each update is run here"),
    "ENABLE_MP": (OFF, "there is one world here"),
    "NUM_DEMES": (("0", "1"), "the world has no demes here"),
    "ENERGY_ENABLED": (OFF, "there is no energy here"),
    "ENABLE_HGT": (OFF, "no genes are taken from the dead here"),
    "USE_AVATARS": (OFF, "nobody moves here"),
    "PRED_PREY_SWITCH": (("-1", "-2"), "there are no predators here"),
    "USE_FORM_GROUPS": (OFF, "there are no groups here"),
    "KABOOM_PROB": (OFF, "nobody explodes here"),
    "PROMOTERS_ENABLED": (OFF, "a genome has no promoters here"),
    "CONSTITUTIVE_REGULATION": (OFF, "a genome has no promoters here"),
    "META_COPY_MUT": (OFF, "the rates don't evolve here"),
    "SPECIAL_MUT_LINE": (("-1",), "all places have the same rates here"),
    "MUT_RATE_SOURCE": (("1",), "the rates are those of the world here"),
    "RAW_MATCHING_ENABLED": (OFF, "no materials are matched here"),
}

# The same for all settings whose names have a form.
FIXED_FORMS = (
    (r"COPY_(INS|DEL|UNIFORM|SLIP)_PROB", OFF, "copying only changes letters here"),
    (r"POINT_(MUT|INS|DEL)_PROB", OFF, "genomes change only at a birth here"),
    (r"DIV_(UNIFORM|SLIP|TRANS|LGT)_PROB", OFF, "a birth only changes, inserts and deletes letters here"),
    (r"DIVIDE_(MUT|UNIFORM|SLIP|TRANS|LGT)_PROB", OFF, "a birth has at most one letter inserted and one deleted here"),
    (r"DIVIDE_POISSON_\w+_MEAN", OFF, "a birth has at most one letter inserted and one deleted here"),
    (r"PARENT_(MUT|INS|DEL)_PROB", OFF, "a parent's genome never changes here"),
    (r"INJECT_(MUT|INS|DEL)_PROB", OFF, "no parasites are here"),
    (r"(REVERT|STERILIZE)_\w+", OFF, "no child is refused or put back for what it does here"),
    (r"(REQUIRED|IMMUNITY)_(TASK|REACTION|RESOURCE)", ("-1",), "a divide needs no task here"),
    (r"REQUIRED_PRED_HABITAT", ("-1",), "a divide needs no habitat here"),
)

# Settings that change nothing here, whatever their value, by the form of their names.
NO_EFFECT = (
    (
        r"VERSION_ID|DATA_DIR|ANALYZE_\w+|VIEW_MODE|VERBOSITY|CLONE_FILE|\w+_LOG|LOG_\w+|SAVE_\w+|FULL_TRACE|TRACE_\w+|TRACK_\w+"
        r"|MT_CONCURRENCY|SPECULATIVE|THRESHOLD|GENOTYPE_\w+|SPECIES_\w+|TEST_CPU_TIME_MOD|PHENPLAST_\w+|INST_SET_LOAD_LEGACY"
        r"|OUTPUT_\w+|PRINT_\w+|RECORD_\w+|DISABLE_GENOTYPE_CLASSIFICATION|PRECALC_\w+|MP_\w+",
        "Avida's own files, messages and ways to compute",
    ),
    (r"GENERATION_INC_METHOD", "nothing here counts generations by it"),
    (r"FITNESS_\w+|NEUTRAL_M\w+|BASE_CONST_MERIT|MAX_LABEL_SIZE|LEARNING_COUNT|(SLIP|TRANS|LGT)_\w+|META_STD_DEV", "belongs to what is switched off"),
    (r"REQUIRED_(PRED_HABITAT_VALUE|RESOURCE_LEVEL)", "belongs to what is switched off"),
    (
        r"RECOMBINATION_PROB|MAX_BIRTH_WAIT_TIME|MODULE_NUM|CONT_REC_REGS|CORESPOND_REC_REGS|TWO_FOLD_COST_SEX|SAME_LENGTH_SEX"
        r"|ALLOW_MATE_SELECTION|\w*MAT(E|ING)_\w+|LEKKING\w*|NUM_\w*MATES?",
        "belongs to sexual reproduction, for which the instruction set has no instruction",
    ),
    (r"PARASITE\w*|INJECT_\w+|VIRULENCE_\w+|INFECTION_\w+|\w*HOST\w*|PROB_PARASITE\w*", "belongs to parasites, which aren't here"),
    (r"DEMES?_\w+|\w+_DEMES?|DEMES|GERMLINE_\w+|MIGRATION_\w+|\w*MIGRATE\w*|PROPAGULE\w*|KEEP_DEMES\w*", "belongs to demes, which are off"),
    (r"ENERGY_\w+|\w+_ENERGY\w*|FRAC_\w+|NUM_CYCLES_EXC_BEFORE_\w+", "belongs to energy, which is off"),
    (r"HGT_\w+", "belongs to taking genes from the dead, which is off"),
    (
        r"AVATAR\w*|PREDATOR\w*|PRED_\w+|MOVE_\w+|LOOK_\w+|HABITAT\w*|NEURAL_\w+|MARKING_\w+|MAX_PREY\w*|MIN_PREY\w*",
        "belongs to movement, which isn't here",
    ),
    (
        r"GROUP_\w+|FORAGE\w*|TOLERANCE_\w+|DEFAULT_GROUP|\w+_OFFSPRING_GROUP\w*|INHERIT_OPINION|OPINION_\w+",
        "belongs to groups, which aren't here",
    ),
    (
        r"SYNC_\w+|REPUTATION_\w+|NETWORK\w*|NET_\w+|MESSAGE_\w+|ALARM_\w+|BCAST\w*|KABOOM\w*|ALTRUISM\w*|RAW_MATERIAL\w*"
        r"|IO_EXPIRE|SENSE_\w+|DONATION\w*|\w*DONATE?\w*|QUORUM_\w+|PROMOTER_\w+|REGULATION_\w+|REPRO_METHOD",
        "belongs to instructions that the instruction set doesn't have",
    ),
)

# The files that avida.cfg names: the setting, the name where the setting is missing, and the option that names another.
FILES = {
    "events": (("EVENT_FILE",), "events.cfg"),
    "environment": (("ENVIRONMENT_FILE",), "environment.cfg"),
    "instset": (("INST_SET",), "instset-heads.cfg"),
}
START = ("START_ORGANISM", "START_CREATURE")

# Settings that change the run where avida.cfg doesn't have them, since Avida's own default isn't this world's.
ABSENT = {"ALLOW_PARENT": "1", "SLICING_METHOD": "1"}

# The nine reactions: the task that each rewards, and the exponent of 2.
REACTIONS = {"not": 1, "nand": 1, "and": 2, "orn": 2, "or": 3, "andn": 3, "nor": 4, "xor": 4, "equ": 5}

# Actions of events.cfg that write something or only look, by the form of their names.
QUIET_ACTIONS = r"(Print|Dump|Save|Echo|Flush|Output|Sample|Verbosity|SetVerbos|Analyze|Test|Calc|Count|Message)\w*"
