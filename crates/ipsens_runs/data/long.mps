ROWS
 N cost
 G r1
COLUMNS
 M 'MARKER' 'INTORG'
 column0000 cost 1 r1 1
 column0001 cost 920 r1 730
 column0002 cost 839 r1 459
 column0003 cost 758 r1 188
 column0004 cost 677 r1 917
 column0005 cost 596 r1 646
 column0006 cost 515 r1 375
 column0007 cost 434 r1 104
 column0008 cost 353 r1 833
 column0009 cost 272 r1 562
 column0010 cost 191 r1 291
 column0011 cost 110 r1 20
 column0012 cost 29 r1 749
 column0013 cost 948 r1 478
 column0014 cost 867 r1 207
 column0015 cost 786 r1 936
 column0016 cost 705 r1 665
 column0017 cost 624 r1 394
 column0018 cost 543 r1 123
 column0019 cost 462 r1 852
 column0020 cost 381 r1 581
 column0021 cost 300 r1 310
 column0022 cost 219 r1 39
 column0023 cost 138 r1 768
 column0024 cost 57 r1 497
 column0025 cost 976 r1 226
 column0026 cost 895 r1 955
 column0027 cost 814 r1 684
 column0028 cost 733 r1 413
 column0029 cost 652 r1 142
 column0030 cost 571 r1 871
 column0031 cost 490 r1 600
 column0032 cost 409 r1 329
 column0033 cost 328 r1 58
 column0034 cost 247 r1 787
 column0035 cost 166 r1 516
 column0036 cost 85 r1 245
 column0037 cost 4 r1 974
 column0038 cost 923 r1 703
 column0039 cost 842 r1 432
 column0040 cost 761 r1 161
 column0041 cost 680 r1 890
 column0042 cost 599 r1 619
 column0043 cost 518 r1 348
 column0044 cost 437 r1 77
 column0045 cost 356 r1 806
 column0046 cost 275 r1 535
 column0047 cost 194 r1 264
 column0048 cost 113 r1 993
 column0049 cost 32 r1 722
 column0050 cost 951 r1 451
 column0051 cost 870 r1 180
 column0052 cost 789 r1 909
 column0053 cost 708 r1 638
 column0054 cost 627 r1 367
 column0055 cost 546 r1 96
 column0056 cost 465 r1 825
 column0057 cost 384 r1 554
 column0058 cost 303 r1 283
 column0059 cost 222 r1 12
 column0060 cost 141 r1 741
 column0061 cost 60 r1 470
 column0062 cost 979 r1 199
 column0063 cost 898 r1 928
 column0064 cost 817 r1 657
 column0065 cost 736 r1 386
 column0066 cost 655 r1 115
 column0067 cost 574 r1 844
 column0068 cost 493 r1 573
 column0069 cost 412 r1 302
 column0070 cost 331 r1 31
 column0071 cost 250 r1 760
 column0072 cost 169 r1 489
 column0073 cost 88 r1 218
 column0074 cost 7 r1 947
 column0075 cost 926 r1 676
 column0076 cost 845 r1 405
 column0077 cost 764 r1 134
 column0078 cost 683 r1 863
 column0079 cost 602 r1 592
 column0080 cost 521 r1 321
 column0081 cost 440 r1 50
 column0082 cost 359 r1 779
 column0083 cost 278 r1 508
 column0084 cost 197 r1 237
 column0085 cost 116 r1 966
 column0086 cost 35 r1 695
 column0087 cost 954 r1 424
 column0088 cost 873 r1 153
 column0089 cost 792 r1 882
 column0090 cost 711 r1 611
 column0091 cost 630 r1 340
 column0092 cost 549 r1 69
 column0093 cost 468 r1 798
 column0094 cost 387 r1 527
 column0095 cost 306 r1 256
 column0096 cost 225 r1 985
 column0097 cost 144 r1 714
 column0098 cost 63 r1 443
 column0099 cost 982 r1 172
 column0100 cost 901 r1 901
 column0101 cost 820 r1 630
 column0102 cost 739 r1 359
 column0103 cost 658 r1 88
 column0104 cost 577 r1 817
 column0105 cost 496 r1 546
 column0106 cost 415 r1 275
 column0107 cost 334 r1 4
 column0108 cost 253 r1 733
 column0109 cost 172 r1 462
 column0110 cost 91 r1 191
 column0111 cost 10 r1 920
 column0112 cost 929 r1 649
 column0113 cost 848 r1 378
 column0114 cost 767 r1 107
 column0115 cost 686 r1 836
 column0116 cost 605 r1 565
 column0117 cost 524 r1 294
 column0118 cost 443 r1 23
 column0119 cost 362 r1 752
 column0120 cost 281 r1 481
 column0121 cost 200 r1 210
 column0122 cost 119 r1 939
 column0123 cost 38 r1 668
 column0124 cost 957 r1 397
 column0125 cost 876 r1 126
 column0126 cost 795 r1 855
 column0127 cost 714 r1 584
 column0128 cost 633 r1 313
 column0129 cost 552 r1 42
 column0130 cost 471 r1 771
 column0131 cost 390 r1 500
 column0132 cost 309 r1 229
 column0133 cost 228 r1 958
 column0134 cost 147 r1 687
 column0135 cost 66 r1 416
 column0136 cost 985 r1 145
 column0137 cost 904 r1 874
 column0138 cost 823 r1 603
 column0139 cost 742 r1 332
 column0140 cost 661 r1 61
 column0141 cost 580 r1 790
 column0142 cost 499 r1 519
 column0143 cost 418 r1 248
 column0144 cost 337 r1 977
 column0145 cost 256 r1 706
 column0146 cost 175 r1 435
 column0147 cost 94 r1 164
 column0148 cost 13 r1 893
 column0149 cost 932 r1 622
 column0150 cost 851 r1 351
 column0151 cost 770 r1 80
 column0152 cost 689 r1 809
 column0153 cost 608 r1 538
 column0154 cost 527 r1 267
 column0155 cost 446 r1 996
 column0156 cost 365 r1 725
 column0157 cost 284 r1 454
 column0158 cost 203 r1 183
 column0159 cost 122 r1 912
 column0160 cost 41 r1 641
 column0161 cost 960 r1 370
 column0162 cost 879 r1 99
 column0163 cost 798 r1 828
 column0164 cost 717 r1 557
 column0165 cost 636 r1 286
 column0166 cost 555 r1 15
 column0167 cost 474 r1 744
 column0168 cost 393 r1 473
 column0169 cost 312 r1 202
 column0170 cost 231 r1 931
 column0171 cost 150 r1 660
 column0172 cost 69 r1 389
 column0173 cost 988 r1 118
 column0174 cost 907 r1 847
 column0175 cost 826 r1 576
 column0176 cost 745 r1 305
 column0177 cost 664 r1 34
 column0178 cost 583 r1 763
 column0179 cost 502 r1 492
 column0180 cost 421 r1 221
 column0181 cost 340 r1 950
 column0182 cost 259 r1 679
 column0183 cost 178 r1 408
 column0184 cost 97 r1 137
 column0185 cost 16 r1 866
 column0186 cost 935 r1 595
 column0187 cost 854 r1 324
 column0188 cost 773 r1 53
 column0189 cost 692 r1 782
 column0190 cost 611 r1 511
 column0191 cost 530 r1 240
 column0192 cost 449 r1 969
 column0193 cost 368 r1 698
 column0194 cost 287 r1 427
 column0195 cost 206 r1 156
 column0196 cost 125 r1 885
 column0197 cost 44 r1 614
 column0198 cost 963 r1 343
 column0199 cost 882 r1 72
 column0200 cost 801 r1 801
 column0201 cost 720 r1 530
 column0202 cost 639 r1 259
 column0203 cost 558 r1 988
 column0204 cost 477 r1 717
 column0205 cost 396 r1 446
 column0206 cost 315 r1 175
 column0207 cost 234 r1 904
 column0208 cost 153 r1 633
 column0209 cost 72 r1 362
 column0210 cost 991 r1 91
 column0211 cost 910 r1 820
 column0212 cost 829 r1 549
 column0213 cost 748 r1 278
 column0214 cost 667 r1 7
 column0215 cost 586 r1 736
 column0216 cost 505 r1 465
 column0217 cost 424 r1 194
 column0218 cost 343 r1 923
 column0219 cost 262 r1 652
 column0220 cost 181 r1 381
 column0221 cost 100 r1 110
 column0222 cost 19 r1 839
 column0223 cost 938 r1 568
 column0224 cost 857 r1 297
 column0225 cost 776 r1 26
 column0226 cost 695 r1 755
 column0227 cost 614 r1 484
 column0228 cost 533 r1 213
 column0229 cost 452 r1 942
 column0230 cost 371 r1 671
 column0231 cost 290 r1 400
 column0232 cost 209 r1 129
 column0233 cost 128 r1 858
 column0234 cost 47 r1 587
 column0235 cost 966 r1 316
 column0236 cost 885 r1 45
 column0237 cost 804 r1 774
 column0238 cost 723 r1 503
 column0239 cost 642 r1 232
 column0240 cost 561 r1 961
 column0241 cost 480 r1 690
 column0242 cost 399 r1 419
 column0243 cost 318 r1 148
 column0244 cost 237 r1 877
 column0245 cost 156 r1 606
 column0246 cost 75 r1 335
 column0247 cost 994 r1 64
 column0248 cost 913 r1 793
 column0249 cost 832 r1 522
 column0250 cost 751 r1 251
 column0251 cost 670 r1 980
 column0252 cost 589 r1 709
 column0253 cost 508 r1 438
 column0254 cost 427 r1 167
 column0255 cost 346 r1 896
 column0256 cost 265 r1 625
 column0257 cost 184 r1 354
 column0258 cost 103 r1 83
 column0259 cost 22 r1 812
 column0260 cost 941 r1 541
 column0261 cost 860 r1 270
 column0262 cost 779 r1 999
 column0263 cost 698 r1 728
 column0264 cost 617 r1 457
 column0265 cost 536 r1 186
 column0266 cost 455 r1 915
 column0267 cost 374 r1 644
 column0268 cost 293 r1 373
 column0269 cost 212 r1 102
 column0270 cost 131 r1 831
 column0271 cost 50 r1 560
 column0272 cost 969 r1 289
 column0273 cost 888 r1 18
 column0274 cost 807 r1 747
 column0275 cost 726 r1 476
 column0276 cost 645 r1 205
 column0277 cost 564 r1 934
 column0278 cost 483 r1 663
 column0279 cost 402 r1 392
 column0280 cost 321 r1 121
 column0281 cost 240 r1 850
 column0282 cost 159 r1 579
 column0283 cost 78 r1 308
 column0284 cost 997 r1 37
 column0285 cost 916 r1 766
 column0286 cost 835 r1 495
 column0287 cost 754 r1 224
 column0288 cost 673 r1 953
 column0289 cost 592 r1 682
 column0290 cost 511 r1 411
 column0291 cost 430 r1 140
 column0292 cost 349 r1 869
 column0293 cost 268 r1 598
 column0294 cost 187 r1 327
 column0295 cost 106 r1 56
 column0296 cost 25 r1 785
 column0297 cost 944 r1 514
 column0298 cost 863 r1 243
 column0299 cost 782 r1 972
 column0300 cost 701 r1 701
 column0301 cost 620 r1 430
 column0302 cost 539 r1 159
 column0303 cost 458 r1 888
 column0304 cost 377 r1 617
 column0305 cost 296 r1 346
 column0306 cost 215 r1 75
 column0307 cost 134 r1 804
 column0308 cost 53 r1 533
 column0309 cost 972 r1 262
 column0310 cost 891 r1 991
 column0311 cost 810 r1 720
 column0312 cost 729 r1 449
 column0313 cost 648 r1 178
 column0314 cost 567 r1 907
 column0315 cost 486 r1 636
 column0316 cost 405 r1 365
 column0317 cost 324 r1 94
 column0318 cost 243 r1 823
 column0319 cost 162 r1 552
 column0320 cost 81 r1 281
 column0321 cost 1000 r1 10
 column0322 cost 919 r1 739
 column0323 cost 838 r1 468
 column0324 cost 757 r1 197
 column0325 cost 676 r1 926
 column0326 cost 595 r1 655
 column0327 cost 514 r1 384
 column0328 cost 433 r1 113
 column0329 cost 352 r1 842
 column0330 cost 271 r1 571
 column0331 cost 190 r1 300
 column0332 cost 109 r1 29
 column0333 cost 28 r1 758
 column0334 cost 947 r1 487
 column0335 cost 866 r1 216
 column0336 cost 785 r1 945
 column0337 cost 704 r1 674
 column0338 cost 623 r1 403
 column0339 cost 542 r1 132
 column0340 cost 461 r1 861
 column0341 cost 380 r1 590
 column0342 cost 299 r1 319
 column0343 cost 218 r1 48
 column0344 cost 137 r1 777
 column0345 cost 56 r1 506
 column0346 cost 975 r1 235
 column0347 cost 894 r1 964
 column0348 cost 813 r1 693
 column0349 cost 732 r1 422
 column0350 cost 651 r1 151
 column0351 cost 570 r1 880
 column0352 cost 489 r1 609
 column0353 cost 408 r1 338
 column0354 cost 327 r1 67
 column0355 cost 246 r1 796
 column0356 cost 165 r1 525
 column0357 cost 84 r1 254
 column0358 cost 3 r1 983
 column0359 cost 922 r1 712
 column0360 cost 841 r1 441
 column0361 cost 760 r1 170
 column0362 cost 679 r1 899
 column0363 cost 598 r1 628
 column0364 cost 517 r1 357
 column0365 cost 436 r1 86
 column0366 cost 355 r1 815
 column0367 cost 274 r1 544
 column0368 cost 193 r1 273
 column0369 cost 112 r1 2
 column0370 cost 31 r1 731
 column0371 cost 950 r1 460
 column0372 cost 869 r1 189
 column0373 cost 788 r1 918
 column0374 cost 707 r1 647
 column0375 cost 626 r1 376
 column0376 cost 545 r1 105
 column0377 cost 464 r1 834
 column0378 cost 383 r1 563
 column0379 cost 302 r1 292
 column0380 cost 221 r1 21
 column0381 cost 140 r1 750
 column0382 cost 59 r1 479
 column0383 cost 978 r1 208
 column0384 cost 897 r1 937
 column0385 cost 816 r1 666
 column0386 cost 735 r1 395
 column0387 cost 654 r1 124
 column0388 cost 573 r1 853
 column0389 cost 492 r1 582
 column0390 cost 411 r1 311
 column0391 cost 330 r1 40
 column0392 cost 249 r1 769
 column0393 cost 168 r1 498
 column0394 cost 87 r1 227
 column0395 cost 6 r1 956
 column0396 cost 925 r1 685
 column0397 cost 844 r1 414
 column0398 cost 763 r1 143
 column0399 cost 682 r1 872
 column0400 cost 601 r1 601
 column0401 cost 520 r1 330
 column0402 cost 439 r1 59
 column0403 cost 358 r1 788
 column0404 cost 277 r1 517
 column0405 cost 196 r1 246
 column0406 cost 115 r1 975
 column0407 cost 34 r1 704
 column0408 cost 953 r1 433
 column0409 cost 872 r1 162
 column0410 cost 791 r1 891
 column0411 cost 710 r1 620
 column0412 cost 629 r1 349
 column0413 cost 548 r1 78
 column0414 cost 467 r1 807
 column0415 cost 386 r1 536
 column0416 cost 305 r1 265
 column0417 cost 224 r1 994
 column0418 cost 143 r1 723
 column0419 cost 62 r1 452
 column0420 cost 981 r1 181
 column0421 cost 900 r1 910
 column0422 cost 819 r1 639
 column0423 cost 738 r1 368
 column0424 cost 657 r1 97
 column0425 cost 576 r1 826
 column0426 cost 495 r1 555
 column0427 cost 414 r1 284
 column0428 cost 333 r1 13
 column0429 cost 252 r1 742
 column0430 cost 171 r1 471
 column0431 cost 90 r1 200
 column0432 cost 9 r1 929
 column0433 cost 928 r1 658
 column0434 cost 847 r1 387
 column0435 cost 766 r1 116
 column0436 cost 685 r1 845
 column0437 cost 604 r1 574
 column0438 cost 523 r1 303
 column0439 cost 442 r1 32
 column0440 cost 361 r1 761
 column0441 cost 280 r1 490
 column0442 cost 199 r1 219
 column0443 cost 118 r1 948
 column0444 cost 37 r1 677
 column0445 cost 956 r1 406
 column0446 cost 875 r1 135
 column0447 cost 794 r1 864
 column0448 cost 713 r1 593
 column0449 cost 632 r1 322
 column0450 cost 551 r1 51
 column0451 cost 470 r1 780
 column0452 cost 389 r1 509
 column0453 cost 308 r1 238
 column0454 cost 227 r1 967
 column0455 cost 146 r1 696
 column0456 cost 65 r1 425
 column0457 cost 984 r1 154
 column0458 cost 903 r1 883
 column0459 cost 822 r1 612
 column0460 cost 741 r1 341
 column0461 cost 660 r1 70
 column0462 cost 579 r1 799
 column0463 cost 498 r1 528
 column0464 cost 417 r1 257
 column0465 cost 336 r1 986
 column0466 cost 255 r1 715
 column0467 cost 174 r1 444
 column0468 cost 93 r1 173
 column0469 cost 12 r1 902
 column0470 cost 931 r1 631
 column0471 cost 850 r1 360
 column0472 cost 769 r1 89
 column0473 cost 688 r1 818
 column0474 cost 607 r1 547
 column0475 cost 526 r1 276
 column0476 cost 445 r1 5
 column0477 cost 364 r1 734
 column0478 cost 283 r1 463
 column0479 cost 202 r1 192
 column0480 cost 121 r1 921
 column0481 cost 40 r1 650
 column0482 cost 959 r1 379
 column0483 cost 878 r1 108
 column0484 cost 797 r1 837
 column0485 cost 716 r1 566
 column0486 cost 635 r1 295
 column0487 cost 554 r1 24
 column0488 cost 473 r1 753
 column0489 cost 392 r1 482
 column0490 cost 311 r1 211
 column0491 cost 230 r1 940
 column0492 cost 149 r1 669
 column0493 cost 68 r1 398
 column0494 cost 987 r1 127
 column0495 cost 906 r1 856
 column0496 cost 825 r1 585
 column0497 cost 744 r1 314
 column0498 cost 663 r1 43
 column0499 cost 582 r1 772
 column0500 cost 501 r1 501
 column0501 cost 420 r1 230
 column0502 cost 339 r1 959
 column0503 cost 258 r1 688
 column0504 cost 177 r1 417
 column0505 cost 96 r1 146
 column0506 cost 15 r1 875
 column0507 cost 934 r1 604
 column0508 cost 853 r1 333
 column0509 cost 772 r1 62
 column0510 cost 691 r1 791
 column0511 cost 610 r1 520
 column0512 cost 529 r1 249
 column0513 cost 448 r1 978
 column0514 cost 367 r1 707
 column0515 cost 286 r1 436
 column0516 cost 205 r1 165
 column0517 cost 124 r1 894
 column0518 cost 43 r1 623
 column0519 cost 962 r1 352
 column0520 cost 881 r1 81
 column0521 cost 800 r1 810
 column0522 cost 719 r1 539
 column0523 cost 638 r1 268
 column0524 cost 557 r1 997
 column0525 cost 476 r1 726
 column0526 cost 395 r1 455
 column0527 cost 314 r1 184
 column0528 cost 233 r1 913
 column0529 cost 152 r1 642
 column0530 cost 71 r1 371
 column0531 cost 990 r1 100
 column0532 cost 909 r1 829
 column0533 cost 828 r1 558
 column0534 cost 747 r1 287
 column0535 cost 666 r1 16
 column0536 cost 585 r1 745
 column0537 cost 504 r1 474
 column0538 cost 423 r1 203
 column0539 cost 342 r1 932
 column0540 cost 261 r1 661
 column0541 cost 180 r1 390
 column0542 cost 99 r1 119
 column0543 cost 18 r1 848
 column0544 cost 937 r1 577
 column0545 cost 856 r1 306
 column0546 cost 775 r1 35
 column0547 cost 694 r1 764
 column0548 cost 613 r1 493
 column0549 cost 532 r1 222
 column0550 cost 451 r1 951
 column0551 cost 370 r1 680
 column0552 cost 289 r1 409
 column0553 cost 208 r1 138
 column0554 cost 127 r1 867
 column0555 cost 46 r1 596
 column0556 cost 965 r1 325
 column0557 cost 884 r1 54
 column0558 cost 803 r1 783
 column0559 cost 722 r1 512
 column0560 cost 641 r1 241
 column0561 cost 560 r1 970
 column0562 cost 479 r1 699
 column0563 cost 398 r1 428
 column0564 cost 317 r1 157
 column0565 cost 236 r1 886
 column0566 cost 155 r1 615
 column0567 cost 74 r1 344
 column0568 cost 993 r1 73
 column0569 cost 912 r1 802
 column0570 cost 831 r1 531
 column0571 cost 750 r1 260
 column0572 cost 669 r1 989
 column0573 cost 588 r1 718
 column0574 cost 507 r1 447
 column0575 cost 426 r1 176
 column0576 cost 345 r1 905
 column0577 cost 264 r1 634
 column0578 cost 183 r1 363
 column0579 cost 102 r1 92
 column0580 cost 21 r1 821
 column0581 cost 940 r1 550
 column0582 cost 859 r1 279
 column0583 cost 778 r1 8
 column0584 cost 697 r1 737
 column0585 cost 616 r1 466
 column0586 cost 535 r1 195
 column0587 cost 454 r1 924
 column0588 cost 373 r1 653
 column0589 cost 292 r1 382
 column0590 cost 211 r1 111
 column0591 cost 130 r1 840
 column0592 cost 49 r1 569
 column0593 cost 968 r1 298
 column0594 cost 887 r1 27
 column0595 cost 806 r1 756
 column0596 cost 725 r1 485
 column0597 cost 644 r1 214
 column0598 cost 563 r1 943
 column0599 cost 482 r1 672
 column0600 cost 401 r1 401
 column0601 cost 320 r1 130
 column0602 cost 239 r1 859
 column0603 cost 158 r1 588
 column0604 cost 77 r1 317
 column0605 cost 996 r1 46
 column0606 cost 915 r1 775
 column0607 cost 834 r1 504
 column0608 cost 753 r1 233
 column0609 cost 672 r1 962
 column0610 cost 591 r1 691
 column0611 cost 510 r1 420
 column0612 cost 429 r1 149
 column0613 cost 348 r1 878
 column0614 cost 267 r1 607
 column0615 cost 186 r1 336
 column0616 cost 105 r1 65
 column0617 cost 24 r1 794
 column0618 cost 943 r1 523
 column0619 cost 862 r1 252
 column0620 cost 781 r1 981
 column0621 cost 700 r1 710
 column0622 cost 619 r1 439
 column0623 cost 538 r1 168
 column0624 cost 457 r1 897
 column0625 cost 376 r1 626
 column0626 cost 295 r1 355
 column0627 cost 214 r1 84
 column0628 cost 133 r1 813
 column0629 cost 52 r1 542
 column0630 cost 971 r1 271
 column0631 cost 890 r1 1000
 column0632 cost 809 r1 729
 column0633 cost 728 r1 458
 column0634 cost 647 r1 187
 column0635 cost 566 r1 916
 column0636 cost 485 r1 645
 column0637 cost 404 r1 374
 column0638 cost 323 r1 103
 column0639 cost 242 r1 832
 column0640 cost 161 r1 561
 column0641 cost 80 r1 290
 column0642 cost 999 r1 19
 column0643 cost 918 r1 748
 column0644 cost 837 r1 477
 column0645 cost 756 r1 206
 column0646 cost 675 r1 935
 column0647 cost 594 r1 664
 column0648 cost 513 r1 393
 column0649 cost 432 r1 122
 column0650 cost 351 r1 851
 column0651 cost 270 r1 580
 column0652 cost 189 r1 309
 column0653 cost 108 r1 38
 column0654 cost 27 r1 767
 column0655 cost 946 r1 496
 column0656 cost 865 r1 225
 column0657 cost 784 r1 954
 column0658 cost 703 r1 683
 column0659 cost 622 r1 412
 column0660 cost 541 r1 141
 column0661 cost 460 r1 870
 column0662 cost 379 r1 599
 column0663 cost 298 r1 328
 column0664 cost 217 r1 57
 column0665 cost 136 r1 786
 column0666 cost 55 r1 515
 column0667 cost 974 r1 244
 column0668 cost 893 r1 973
 column0669 cost 812 r1 702
 column0670 cost 731 r1 431
 column0671 cost 650 r1 160
 column0672 cost 569 r1 889
 column0673 cost 488 r1 618
 column0674 cost 407 r1 347
 column0675 cost 326 r1 76
 column0676 cost 245 r1 805
 column0677 cost 164 r1 534
 column0678 cost 83 r1 263
 column0679 cost 2 r1 992
 column0680 cost 921 r1 721
 column0681 cost 840 r1 450
 column0682 cost 759 r1 179
 column0683 cost 678 r1 908
 column0684 cost 597 r1 637
 column0685 cost 516 r1 366
 column0686 cost 435 r1 95
 column0687 cost 354 r1 824
 column0688 cost 273 r1 553
 column0689 cost 192 r1 282
 column0690 cost 111 r1 11
 column0691 cost 30 r1 740
 column0692 cost 949 r1 469
 column0693 cost 868 r1 198
 column0694 cost 787 r1 927
 column0695 cost 706 r1 656
 column0696 cost 625 r1 385
 column0697 cost 544 r1 114
 column0698 cost 463 r1 843
 column0699 cost 382 r1 572
 column0700 cost 301 r1 301
 column0701 cost 220 r1 30
 column0702 cost 139 r1 759
 column0703 cost 58 r1 488
 column0704 cost 977 r1 217
 column0705 cost 896 r1 946
 column0706 cost 815 r1 675
 column0707 cost 734 r1 404
 column0708 cost 653 r1 133
 column0709 cost 572 r1 862
 column0710 cost 491 r1 591
 column0711 cost 410 r1 320
 column0712 cost 329 r1 49
 column0713 cost 248 r1 778
 column0714 cost 167 r1 507
 column0715 cost 86 r1 236
 column0716 cost 5 r1 965
 column0717 cost 924 r1 694
 column0718 cost 843 r1 423
 column0719 cost 762 r1 152
 column0720 cost 681 r1 881
 column0721 cost 600 r1 610
 column0722 cost 519 r1 339
 column0723 cost 438 r1 68
 column0724 cost 357 r1 797
 column0725 cost 276 r1 526
 column0726 cost 195 r1 255
 column0727 cost 114 r1 984
 column0728 cost 33 r1 713
 column0729 cost 952 r1 442
 column0730 cost 871 r1 171
 column0731 cost 790 r1 900
 column0732 cost 709 r1 629
 column0733 cost 628 r1 358
 column0734 cost 547 r1 87
 column0735 cost 466 r1 816
 column0736 cost 385 r1 545
 column0737 cost 304 r1 274
 column0738 cost 223 r1 3
 column0739 cost 142 r1 732
 column0740 cost 61 r1 461
 column0741 cost 980 r1 190
 column0742 cost 899 r1 919
 column0743 cost 818 r1 648
 column0744 cost 737 r1 377
 column0745 cost 656 r1 106
 column0746 cost 575 r1 835
 column0747 cost 494 r1 564
 column0748 cost 413 r1 293
 column0749 cost 332 r1 22
 column0750 cost 251 r1 751
 column0751 cost 170 r1 480
 column0752 cost 89 r1 209
 column0753 cost 8 r1 938
 column0754 cost 927 r1 667
 column0755 cost 846 r1 396
 column0756 cost 765 r1 125
 column0757 cost 684 r1 854
 column0758 cost 603 r1 583
 column0759 cost 522 r1 312
 column0760 cost 441 r1 41
 column0761 cost 360 r1 770
 column0762 cost 279 r1 499
 column0763 cost 198 r1 228
 column0764 cost 117 r1 957
 column0765 cost 36 r1 686
 column0766 cost 955 r1 415
 column0767 cost 874 r1 144
 column0768 cost 793 r1 873
 column0769 cost 712 r1 602
 column0770 cost 631 r1 331
 column0771 cost 550 r1 60
 column0772 cost 469 r1 789
 column0773 cost 388 r1 518
 column0774 cost 307 r1 247
 column0775 cost 226 r1 976
 column0776 cost 145 r1 705
 column0777 cost 64 r1 434
 column0778 cost 983 r1 163
 column0779 cost 902 r1 892
 column0780 cost 821 r1 621
 column0781 cost 740 r1 350
 column0782 cost 659 r1 79
 column0783 cost 578 r1 808
 column0784 cost 497 r1 537
 column0785 cost 416 r1 266
 column0786 cost 335 r1 995
 column0787 cost 254 r1 724
 column0788 cost 173 r1 453
 column0789 cost 92 r1 182
 column0790 cost 11 r1 911
 column0791 cost 930 r1 640
 column0792 cost 849 r1 369
 column0793 cost 768 r1 98
 column0794 cost 687 r1 827
 column0795 cost 606 r1 556
 column0796 cost 525 r1 285
 column0797 cost 444 r1 14
 column0798 cost 363 r1 743
 column0799 cost 282 r1 472
 column0800 cost 201 r1 201
 column0801 cost 120 r1 930
 column0802 cost 39 r1 659
 column0803 cost 958 r1 388
 column0804 cost 877 r1 117
 column0805 cost 796 r1 846
 column0806 cost 715 r1 575
 column0807 cost 634 r1 304
 column0808 cost 553 r1 33
 column0809 cost 472 r1 762
 column0810 cost 391 r1 491
 column0811 cost 310 r1 220
 column0812 cost 229 r1 949
 column0813 cost 148 r1 678
 column0814 cost 67 r1 407
 column0815 cost 986 r1 136
 column0816 cost 905 r1 865
 column0817 cost 824 r1 594
 column0818 cost 743 r1 323
 column0819 cost 662 r1 52
 column0820 cost 581 r1 781
 column0821 cost 500 r1 510
 column0822 cost 419 r1 239
 column0823 cost 338 r1 968
 column0824 cost 257 r1 697
 column0825 cost 176 r1 426
 column0826 cost 95 r1 155
 column0827 cost 14 r1 884
 column0828 cost 933 r1 613
 column0829 cost 852 r1 342
 column0830 cost 771 r1 71
 column0831 cost 690 r1 800
 column0832 cost 609 r1 529
 column0833 cost 528 r1 258
 column0834 cost 447 r1 987
 column0835 cost 366 r1 716
 column0836 cost 285 r1 445
 column0837 cost 204 r1 174
 column0838 cost 123 r1 903
 column0839 cost 42 r1 632
 column0840 cost 961 r1 361
 column0841 cost 880 r1 90
 column0842 cost 799 r1 819
 column0843 cost 718 r1 548
 column0844 cost 637 r1 277
 column0845 cost 556 r1 6
 column0846 cost 475 r1 735
 column0847 cost 394 r1 464
 column0848 cost 313 r1 193
 column0849 cost 232 r1 922
 column0850 cost 151 r1 651
 column0851 cost 70 r1 380
 column0852 cost 989 r1 109
 column0853 cost 908 r1 838
 column0854 cost 827 r1 567
 column0855 cost 746 r1 296
 column0856 cost 665 r1 25
 column0857 cost 584 r1 754
 column0858 cost 503 r1 483
 column0859 cost 422 r1 212
 column0860 cost 341 r1 941
 column0861 cost 260 r1 670
 column0862 cost 179 r1 399
 column0863 cost 98 r1 128
 column0864 cost 17 r1 857
 column0865 cost 936 r1 586
 column0866 cost 855 r1 315
 column0867 cost 774 r1 44
 column0868 cost 693 r1 773
 column0869 cost 612 r1 502
 column0870 cost 531 r1 231
 column0871 cost 450 r1 960
 column0872 cost 369 r1 689
 column0873 cost 288 r1 418
 column0874 cost 207 r1 147
 column0875 cost 126 r1 876
 column0876 cost 45 r1 605
 column0877 cost 964 r1 334
 column0878 cost 883 r1 63
 column0879 cost 802 r1 792
 column0880 cost 721 r1 521
 column0881 cost 640 r1 250
 column0882 cost 559 r1 979
 column0883 cost 478 r1 708
 column0884 cost 397 r1 437
 column0885 cost 316 r1 166
 column0886 cost 235 r1 895
 column0887 cost 154 r1 624
 column0888 cost 73 r1 353
 column0889 cost 992 r1 82
 column0890 cost 911 r1 811
 column0891 cost 830 r1 540
 column0892 cost 749 r1 269
 column0893 cost 668 r1 998
 column0894 cost 587 r1 727
 column0895 cost 506 r1 456
 column0896 cost 425 r1 185
 column0897 cost 344 r1 914
 column0898 cost 263 r1 643
 column0899 cost 182 r1 372
 column0900 cost 101 r1 101
 column0901 cost 20 r1 830
 column0902 cost 939 r1 559
 column0903 cost 858 r1 288
 column0904 cost 777 r1 17
 column0905 cost 696 r1 746
 column0906 cost 615 r1 475
 column0907 cost 534 r1 204
 column0908 cost 453 r1 933
 column0909 cost 372 r1 662
 column0910 cost 291 r1 391
 column0911 cost 210 r1 120
 column0912 cost 129 r1 849
 column0913 cost 48 r1 578
 column0914 cost 967 r1 307
 column0915 cost 886 r1 36
 column0916 cost 805 r1 765
 column0917 cost 724 r1 494
 column0918 cost 643 r1 223
 column0919 cost 562 r1 952
 column0920 cost 481 r1 681
 column0921 cost 400 r1 410
 column0922 cost 319 r1 139
 column0923 cost 238 r1 868
 column0924 cost 157 r1 597
 column0925 cost 76 r1 326
 column0926 cost 995 r1 55
 column0927 cost 914 r1 784
 column0928 cost 833 r1 513
 column0929 cost 752 r1 242
 column0930 cost 671 r1 971
 column0931 cost 590 r1 700
 column0932 cost 509 r1 429
 column0933 cost 428 r1 158
 column0934 cost 347 r1 887
 column0935 cost 266 r1 616
 column0936 cost 185 r1 345
 column0937 cost 104 r1 74
 column0938 cost 23 r1 803
 column0939 cost 942 r1 532
 column0940 cost 861 r1 261
 column0941 cost 780 r1 990
 column0942 cost 699 r1 719
 column0943 cost 618 r1 448
 column0944 cost 537 r1 177
 column0945 cost 456 r1 906
 column0946 cost 375 r1 635
 column0947 cost 294 r1 364
 column0948 cost 213 r1 93
 column0949 cost 132 r1 822
 column0950 cost 51 r1 551
 column0951 cost 970 r1 280
 column0952 cost 889 r1 9
 column0953 cost 808 r1 738
 column0954 cost 727 r1 467
 column0955 cost 646 r1 196
 column0956 cost 565 r1 925
 column0957 cost 484 r1 654
 column0958 cost 403 r1 383
 column0959 cost 322 r1 112
 column0960 cost 241 r1 841
 column0961 cost 160 r1 570
 column0962 cost 79 r1 299
 column0963 cost 998 r1 28
 column0964 cost 917 r1 757
 column0965 cost 836 r1 486
 column0966 cost 755 r1 215
 column0967 cost 674 r1 944
 column0968 cost 593 r1 673
 column0969 cost 512 r1 402
 column0970 cost 431 r1 131
 column0971 cost 350 r1 860
 column0972 cost 269 r1 589
 column0973 cost 188 r1 318
 column0974 cost 107 r1 47
 column0975 cost 26 r1 776
 column0976 cost 945 r1 505
 column0977 cost 864 r1 234
 column0978 cost 783 r1 963
 column0979 cost 702 r1 692
 column0980 cost 621 r1 421
 column0981 cost 540 r1 150
 column0982 cost 459 r1 879
 column0983 cost 378 r1 608
 column0984 cost 297 r1 337
 column0985 cost 216 r1 66
 column0986 cost 135 r1 795
 column0987 cost 54 r1 524
 column0988 cost 973 r1 253
 column0989 cost 892 r1 982
 column0990 cost 811 r1 711
 column0991 cost 730 r1 440
 column0992 cost 649 r1 169
 column0993 cost 568 r1 898
 column0994 cost 487 r1 627
 column0995 cost 406 r1 356
 column0996 cost 325 r1 85
 column0997 cost 244 r1 814
 column0998 cost 163 r1 543
 column0999 cost 82 r1 272
 M 'MARKER' 'INTEND'
RHS
 RHS r1 5
BOUNDS
 UP BND column0000 1
 UP BND column0001 2
 UP BND column0002 3
 UP BND column0003 4
 UP BND column0004 5
 UP BND column0005 6
 UP BND column0006 7
 UP BND column0007 8
 UP BND column0008 9
 UP BND column0009 10
 UP BND column0010 11
 UP BND column0011 12
 UP BND column0012 13
 UP BND column0013 14
 UP BND column0014 15
 UP BND column0015 16
 UP BND column0016 17
 UP BND column0017 18
 UP BND column0018 19
 UP BND column0019 20
 UP BND column0020 21
 UP BND column0021 22
 UP BND column0022 23
 UP BND column0023 24
 UP BND column0024 25
 UP BND column0025 26
 UP BND column0026 27
 UP BND column0027 28
 UP BND column0028 29
 UP BND column0029 30
 UP BND column0030 31
 UP BND column0031 32
 UP BND column0032 33
 UP BND column0033 34
 UP BND column0034 35
 UP BND column0035 36
 UP BND column0036 37
 UP BND column0037 38
 UP BND column0038 39
 UP BND column0039 40
 UP BND column0040 41
 UP BND column0041 42
 UP BND column0042 43
 UP BND column0043 44
 UP BND column0044 45
 UP BND column0045 46
 UP BND column0046 47
 UP BND column0047 48
 UP BND column0048 49
 UP BND column0049 50
 UP BND column0050 51
 UP BND column0051 52
 UP BND column0052 53
 UP BND column0053 54
 UP BND column0054 55
 UP BND column0055 56
 UP BND column0056 57
 UP BND column0057 58
 UP BND column0058 59
 UP BND column0059 60
 UP BND column0060 61
 UP BND column0061 62
 UP BND column0062 63
 UP BND column0063 64
 UP BND column0064 65
 UP BND column0065 66
 UP BND column0066 67
 UP BND column0067 68
 UP BND column0068 69
 UP BND column0069 70
 UP BND column0070 71
 UP BND column0071 72
 UP BND column0072 73
 UP BND column0073 74
 UP BND column0074 75
 UP BND column0075 76
 UP BND column0076 77
 UP BND column0077 78
 UP BND column0078 79
 UP BND column0079 80
 UP BND column0080 81
 UP BND column0081 82
 UP BND column0082 83
 UP BND column0083 84
 UP BND column0084 85
 UP BND column0085 86
 UP BND column0086 87
 UP BND column0087 88
 UP BND column0088 89
 UP BND column0089 90
 UP BND column0090 91
 UP BND column0091 92
 UP BND column0092 93
 UP BND column0093 94
 UP BND column0094 95
 UP BND column0095 96
 UP BND column0096 97
 UP BND column0097 1
 UP BND column0098 2
 UP BND column0099 3
 UP BND column0100 4
 UP BND column0101 5
 UP BND column0102 6
 UP BND column0103 7
 UP BND column0104 8
 UP BND column0105 9
 UP BND column0106 10
 UP BND column0107 11
 UP BND column0108 12
 UP BND column0109 13
 UP BND column0110 14
 UP BND column0111 15
 UP BND column0112 16
 UP BND column0113 17
 UP BND column0114 18
 UP BND column0115 19
 UP BND column0116 20
 UP BND column0117 21
 UP BND column0118 22
 UP BND column0119 23
 UP BND column0120 24
 UP BND column0121 25
 UP BND column0122 26
 UP BND column0123 27
 UP BND column0124 28
 UP BND column0125 29
 UP BND column0126 30
 UP BND column0127 31
 UP BND column0128 32
 UP BND column0129 33
 UP BND column0130 34
 UP BND column0131 35
 UP BND column0132 36
 UP BND column0133 37
 UP BND column0134 38
 UP BND column0135 39
 UP BND column0136 40
 UP BND column0137 41
 UP BND column0138 42
 UP BND column0139 43
 UP BND column0140 44
 UP BND column0141 45
 UP BND column0142 46
 UP BND column0143 47
 UP BND column0144 48
 UP BND column0145 49
 UP BND column0146 50
 UP BND column0147 51
 UP BND column0148 52
 UP BND column0149 53
 UP BND column0150 54
 UP BND column0151 55
 UP BND column0152 56
 UP BND column0153 57
 UP BND column0154 58
 UP BND column0155 59
 UP BND column0156 60
 UP BND column0157 61
 UP BND column0158 62
 UP BND column0159 63
 UP BND column0160 64
 UP BND column0161 65
 UP BND column0162 66
 UP BND column0163 67
 UP BND column0164 68
 UP BND column0165 69
 UP BND column0166 70
 UP BND column0167 71
 UP BND column0168 72
 UP BND column0169 73
 UP BND column0170 74
 UP BND column0171 75
 UP BND column0172 76
 UP BND column0173 77
 UP BND column0174 78
 UP BND column0175 79
 UP BND column0176 80
 UP BND column0177 81
 UP BND column0178 82
 UP BND column0179 83
 UP BND column0180 84
 UP BND column0181 85
 UP BND column0182 86
 UP BND column0183 87
 UP BND column0184 88
 UP BND column0185 89
 UP BND column0186 90
 UP BND column0187 91
 UP BND column0188 92
 UP BND column0189 93
 UP BND column0190 94
 UP BND column0191 95
 UP BND column0192 96
 UP BND column0193 97
 UP BND column0194 1
 UP BND column0195 2
 UP BND column0196 3
 UP BND column0197 4
 UP BND column0198 5
 UP BND column0199 6
 UP BND column0200 7
 UP BND column0201 8
 UP BND column0202 9
 UP BND column0203 10
 UP BND column0204 11
 UP BND column0205 12
 UP BND column0206 13
 UP BND column0207 14
 UP BND column0208 15
 UP BND column0209 16
 UP BND column0210 17
 UP BND column0211 18
 UP BND column0212 19
 UP BND column0213 20
 UP BND column0214 21
 UP BND column0215 22
 UP BND column0216 23
 UP BND column0217 24
 UP BND column0218 25
 UP BND column0219 26
 UP BND column0220 27
 UP BND column0221 28
 UP BND column0222 29
 UP BND column0223 30
 UP BND column0224 31
 UP BND column0225 32
 UP BND column0226 33
 UP BND column0227 34
 UP BND column0228 35
 UP BND column0229 36
 UP BND column0230 37
 UP BND column0231 38
 UP BND column0232 39
 UP BND column0233 40
 UP BND column0234 41
 UP BND column0235 42
 UP BND column0236 43
 UP BND column0237 44
 UP BND column0238 45
 UP BND column0239 46
 UP BND column0240 47
 UP BND column0241 48
 UP BND column0242 49
 UP BND column0243 50
 UP BND column0244 51
 UP BND column0245 52
 UP BND column0246 53
 UP BND column0247 54
 UP BND column0248 55
 UP BND column0249 56
 UP BND column0250 57
 UP BND column0251 58
 UP BND column0252 59
 UP BND column0253 60
 UP BND column0254 61
 UP BND column0255 62
 UP BND column0256 63
 UP BND column0257 64
 UP BND column0258 65
 UP BND column0259 66
 UP BND column0260 67
 UP BND column0261 68
 UP BND column0262 69
 UP BND column0263 70
 UP BND column0264 71
 UP BND column0265 72
 UP BND column0266 73
 UP BND column0267 74
 UP BND column0268 75
 UP BND column0269 76
 UP BND column0270 77
 UP BND column0271 78
 UP BND column0272 79
 UP BND column0273 80
 UP BND column0274 81
 UP BND column0275 82
 UP BND column0276 83
 UP BND column0277 84
 UP BND column0278 85
 UP BND column0279 86
 UP BND column0280 87
 UP BND column0281 88
 UP BND column0282 89
 UP BND column0283 90
 UP BND column0284 91
 UP BND column0285 92
 UP BND column0286 93
 UP BND column0287 94
 UP BND column0288 95
 UP BND column0289 96
 UP BND column0290 97
 UP BND column0291 1
 UP BND column0292 2
 UP BND column0293 3
 UP BND column0294 4
 UP BND column0295 5
 UP BND column0296 6
 UP BND column0297 7
 UP BND column0298 8
 UP BND column0299 9
 UP BND column0300 10
 UP BND column0301 11
 UP BND column0302 12
 UP BND column0303 13
 UP BND column0304 14
 UP BND column0305 15
 UP BND column0306 16
 UP BND column0307 17
 UP BND column0308 18
 UP BND column0309 19
 UP BND column0310 20
 UP BND column0311 21
 UP BND column0312 22
 UP BND column0313 23
 UP BND column0314 24
 UP BND column0315 25
 UP BND column0316 26
 UP BND column0317 27
 UP BND column0318 28
 UP BND column0319 29
 UP BND column0320 30
 UP BND column0321 31
 UP BND column0322 32
 UP BND column0323 33
 UP BND column0324 34
 UP BND column0325 35
 UP BND column0326 36
 UP BND column0327 37
 UP BND column0328 38
 UP BND column0329 39
 UP BND column0330 40
 UP BND column0331 41
 UP BND column0332 42
 UP BND column0333 43
 UP BND column0334 44
 UP BND column0335 45
 UP BND column0336 46
 UP BND column0337 47
 UP BND column0338 48
 UP BND column0339 49
 UP BND column0340 50
 UP BND column0341 51
 UP BND column0342 52
 UP BND column0343 53
 UP BND column0344 54
 UP BND column0345 55
 UP BND column0346 56
 UP BND column0347 57
 UP BND column0348 58
 UP BND column0349 59
 UP BND column0350 60
 UP BND column0351 61
 UP BND column0352 62
 UP BND column0353 63
 UP BND column0354 64
 UP BND column0355 65
 UP BND column0356 66
 UP BND column0357 67
 UP BND column0358 68
 UP BND column0359 69
 UP BND column0360 70
 UP BND column0361 71
 UP BND column0362 72
 UP BND column0363 73
 UP BND column0364 74
 UP BND column0365 75
 UP BND column0366 76
 UP BND column0367 77
 UP BND column0368 78
 UP BND column0369 79
 UP BND column0370 80
 UP BND column0371 81
 UP BND column0372 82
 UP BND column0373 83
 UP BND column0374 84
 UP BND column0375 85
 UP BND column0376 86
 UP BND column0377 87
 UP BND column0378 88
 UP BND column0379 89
 UP BND column0380 90
 UP BND column0381 91
 UP BND column0382 92
 UP BND column0383 93
 UP BND column0384 94
 UP BND column0385 95
 UP BND column0386 96
 UP BND column0387 97
 UP BND column0388 1
 UP BND column0389 2
 UP BND column0390 3
 UP BND column0391 4
 UP BND column0392 5
 UP BND column0393 6
 UP BND column0394 7
 UP BND column0395 8
 UP BND column0396 9
 UP BND column0397 10
 UP BND column0398 11
 UP BND column0399 12
 UP BND column0400 13
 UP BND column0401 14
 UP BND column0402 15
 UP BND column0403 16
 UP BND column0404 17
 UP BND column0405 18
 UP BND column0406 19
 UP BND column0407 20
 UP BND column0408 21
 UP BND column0409 22
 UP BND column0410 23
 UP BND column0411 24
 UP BND column0412 25
 UP BND column0413 26
 UP BND column0414 27
 UP BND column0415 28
 UP BND column0416 29
 UP BND column0417 30
 UP BND column0418 31
 UP BND column0419 32
 UP BND column0420 33
 UP BND column0421 34
 UP BND column0422 35
 UP BND column0423 36
 UP BND column0424 37
 UP BND column0425 38
 UP BND column0426 39
 UP BND column0427 40
 UP BND column0428 41
 UP BND column0429 42
 UP BND column0430 43
 UP BND column0431 44
 UP BND column0432 45
 UP BND column0433 46
 UP BND column0434 47
 UP BND column0435 48
 UP BND column0436 49
 UP BND column0437 50
 UP BND column0438 51
 UP BND column0439 52
 UP BND column0440 53
 UP BND column0441 54
 UP BND column0442 55
 UP BND column0443 56
 UP BND column0444 57
 UP BND column0445 58
 UP BND column0446 59
 UP BND column0447 60
 UP BND column0448 61
 UP BND column0449 62
 UP BND column0450 63
 UP BND column0451 64
 UP BND column0452 65
 UP BND column0453 66
 UP BND column0454 67
 UP BND column0455 68
 UP BND column0456 69
 UP BND column0457 70
 UP BND column0458 71
 UP BND column0459 72
 UP BND column0460 73
 UP BND column0461 74
 UP BND column0462 75
 UP BND column0463 76
 UP BND column0464 77
 UP BND column0465 78
 UP BND column0466 79
 UP BND column0467 80
 UP BND column0468 81
 UP BND column0469 82
 UP BND column0470 83
 UP BND column0471 84
 UP BND column0472 85
 UP BND column0473 86
 UP BND column0474 87
 UP BND column0475 88
 UP BND column0476 89
 UP BND column0477 90
 UP BND column0478 91
 UP BND column0479 92
 UP BND column0480 93
 UP BND column0481 94
 UP BND column0482 95
 UP BND column0483 96
 UP BND column0484 97
 UP BND column0485 1
 UP BND column0486 2
 UP BND column0487 3
 UP BND column0488 4
 UP BND column0489 5
 UP BND column0490 6
 UP BND column0491 7
 UP BND column0492 8
 UP BND column0493 9
 UP BND column0494 10
 UP BND column0495 11
 UP BND column0496 12
 UP BND column0497 13
 UP BND column0498 14
 UP BND column0499 15
 UP BND column0500 16
 UP BND column0501 17
 UP BND column0502 18
 UP BND column0503 19
 UP BND column0504 20
 UP BND column0505 21
 UP BND column0506 22
 UP BND column0507 23
 UP BND column0508 24
 UP BND column0509 25
 UP BND column0510 26
 UP BND column0511 27
 UP BND column0512 28
 UP BND column0513 29
 UP BND column0514 30
 UP BND column0515 31
 UP BND column0516 32
 UP BND column0517 33
 UP BND column0518 34
 UP BND column0519 35
 UP BND column0520 36
 UP BND column0521 37
 UP BND column0522 38
 UP BND column0523 39
 UP BND column0524 40
 UP BND column0525 41
 UP BND column0526 42
 UP BND column0527 43
 UP BND column0528 44
 UP BND column0529 45
 UP BND column0530 46
 UP BND column0531 47
 UP BND column0532 48
 UP BND column0533 49
 UP BND column0534 50
 UP BND column0535 51
 UP BND column0536 52
 UP BND column0537 53
 UP BND column0538 54
 UP BND column0539 55
 UP BND column0540 56
 UP BND column0541 57
 UP BND column0542 58
 UP BND column0543 59
 UP BND column0544 60
 UP BND column0545 61
 UP BND column0546 62
 UP BND column0547 63
 UP BND column0548 64
 UP BND column0549 65
 UP BND column0550 66
 UP BND column0551 67
 UP BND column0552 68
 UP BND column0553 69
 UP BND column0554 70
 UP BND column0555 71
 UP BND column0556 72
 UP BND column0557 73
 UP BND column0558 74
 UP BND column0559 75
 UP BND column0560 76
 UP BND column0561 77
 UP BND column0562 78
 UP BND column0563 79
 UP BND column0564 80
 UP BND column0565 81
 UP BND column0566 82
 UP BND column0567 83
 UP BND column0568 84
 UP BND column0569 85
 UP BND column0570 86
 UP BND column0571 87
 UP BND column0572 88
 UP BND column0573 89
 UP BND column0574 90
 UP BND column0575 91
 UP BND column0576 92
 UP BND column0577 93
 UP BND column0578 94
 UP BND column0579 95
 UP BND column0580 96
 UP BND column0581 97
 UP BND column0582 1
 UP BND column0583 2
 UP BND column0584 3
 UP BND column0585 4
 UP BND column0586 5
 UP BND column0587 6
 UP BND column0588 7
 UP BND column0589 8
 UP BND column0590 9
 UP BND column0591 10
 UP BND column0592 11
 UP BND column0593 12
 UP BND column0594 13
 UP BND column0595 14
 UP BND column0596 15
 UP BND column0597 16
 UP BND column0598 17
 UP BND column0599 18
 UP BND column0600 19
 UP BND column0601 20
 UP BND column0602 21
 UP BND column0603 22
 UP BND column0604 23
 UP BND column0605 24
 UP BND column0606 25
 UP BND column0607 26
 UP BND column0608 27
 UP BND column0609 28
 UP BND column0610 29
 UP BND column0611 30
 UP BND column0612 31
 UP BND column0613 32
 UP BND column0614 33
 UP BND column0615 34
 UP BND column0616 35
 UP BND column0617 36
 UP BND column0618 37
 UP BND column0619 38
 UP BND column0620 39
 UP BND column0621 40
 UP BND column0622 41
 UP BND column0623 42
 UP BND column0624 43
 UP BND column0625 44
 UP BND column0626 45
 UP BND column0627 46
 UP BND column0628 47
 UP BND column0629 48
 UP BND column0630 49
 UP BND column0631 50
 UP BND column0632 51
 UP BND column0633 52
 UP BND column0634 53
 UP BND column0635 54
 UP BND column0636 55
 UP BND column0637 56
 UP BND column0638 57
 UP BND column0639 58
 UP BND column0640 59
 UP BND column0641 60
 UP BND column0642 61
 UP BND column0643 62
 UP BND column0644 63
 UP BND column0645 64
 UP BND column0646 65
 UP BND column0647 66
 UP BND column0648 67
 UP BND column0649 68
 UP BND column0650 69
 UP BND column0651 70
 UP BND column0652 71
 UP BND column0653 72
 UP BND column0654 73
 UP BND column0655 74
 UP BND column0656 75
 UP BND column0657 76
 UP BND column0658 77
 UP BND column0659 78
 UP BND column0660 79
 UP BND column0661 80
 UP BND column0662 81
 UP BND column0663 82
 UP BND column0664 83
 UP BND column0665 84
 UP BND column0666 85
 UP BND column0667 86
 UP BND column0668 87
 UP BND column0669 88
 UP BND column0670 89
 UP BND column0671 90
 UP BND column0672 91
 UP BND column0673 92
 UP BND column0674 93
 UP BND column0675 94
 UP BND column0676 95
 UP BND column0677 96
 UP BND column0678 97
 UP BND column0679 1
 UP BND column0680 2
 UP BND column0681 3
 UP BND column0682 4
 UP BND column0683 5
 UP BND column0684 6
 UP BND column0685 7
 UP BND column0686 8
 UP BND column0687 9
 UP BND column0688 10
 UP BND column0689 11
 UP BND column0690 12
 UP BND column0691 13
 UP BND column0692 14
 UP BND column0693 15
 UP BND column0694 16
 UP BND column0695 17
 UP BND column0696 18
 UP BND column0697 19
 UP BND column0698 20
 UP BND column0699 21
 UP BND column0700 22
 UP BND column0701 23
 UP BND column0702 24
 UP BND column0703 25
 UP BND column0704 26
 UP BND column0705 27
 UP BND column0706 28
 UP BND column0707 29
 UP BND column0708 30
 UP BND column0709 31
 UP BND column0710 32
 UP BND column0711 33
 UP BND column0712 34
 UP BND column0713 35
 UP BND column0714 36
 UP BND column0715 37
 UP BND column0716 38
 UP BND column0717 39
 UP BND column0718 40
 UP BND column0719 41
 UP BND column0720 42
 UP BND column0721 43
 UP BND column0722 44
 UP BND column0723 45
 UP BND column0724 46
 UP BND column0725 47
 UP BND column0726 48
 UP BND column0727 49
 UP BND column0728 50
 UP BND column0729 51
 UP BND column0730 52
 UP BND column0731 53
 UP BND column0732 54
 UP BND column0733 55
 UP BND column0734 56
 UP BND column0735 57
 UP BND column0736 58
 UP BND column0737 59
 UP BND column0738 60
 UP BND column0739 61
 UP BND column0740 62
 UP BND column0741 63
 UP BND column0742 64
 UP BND column0743 65
 UP BND column0744 66
 UP BND column0745 67
 UP BND column0746 68
 UP BND column0747 69
 UP BND column0748 70
 UP BND column0749 71
 UP BND column0750 72
 UP BND column0751 73
 UP BND column0752 74
 UP BND column0753 75
 UP BND column0754 76
 UP BND column0755 77
 UP BND column0756 78
 UP BND column0757 79
 UP BND column0758 80
 UP BND column0759 81
 UP BND column0760 82
 UP BND column0761 83
 UP BND column0762 84
 UP BND column0763 85
 UP BND column0764 86
 UP BND column0765 87
 UP BND column0766 88
 UP BND column0767 89
 UP BND column0768 90
 UP BND column0769 91
 UP BND column0770 92
 UP BND column0771 93
 UP BND column0772 94
 UP BND column0773 95
 UP BND column0774 96
 UP BND column0775 97
 UP BND column0776 1
 UP BND column0777 2
 UP BND column0778 3
 UP BND column0779 4
 UP BND column0780 5
 UP BND column0781 6
 UP BND column0782 7
 UP BND column0783 8
 UP BND column0784 9
 UP BND column0785 10
 UP BND column0786 11
 UP BND column0787 12
 UP BND column0788 13
 UP BND column0789 14
 UP BND column0790 15
 UP BND column0791 16
 UP BND column0792 17
 UP BND column0793 18
 UP BND column0794 19
 UP BND column0795 20
 UP BND column0796 21
 UP BND column0797 22
 UP BND column0798 23
 UP BND column0799 24
 UP BND column0800 25
 UP BND column0801 26
 UP BND column0802 27
 UP BND column0803 28
 UP BND column0804 29
 UP BND column0805 30
 UP BND column0806 31
 UP BND column0807 32
 UP BND column0808 33
 UP BND column0809 34
 UP BND column0810 35
 UP BND column0811 36
 UP BND column0812 37
 UP BND column0813 38
 UP BND column0814 39
 UP BND column0815 40
 UP BND column0816 41
 UP BND column0817 42
 UP BND column0818 43
 UP BND column0819 44
 UP BND column0820 45
 UP BND column0821 46
 UP BND column0822 47
 UP BND column0823 48
 UP BND column0824 49
 UP BND column0825 50
 UP BND column0826 51
 UP BND column0827 52
 UP BND column0828 53
 UP BND column0829 54
 UP BND column0830 55
 UP BND column0831 56
 UP BND column0832 57
 UP BND column0833 58
 UP BND column0834 59
 UP BND column0835 60
 UP BND column0836 61
 UP BND column0837 62
 UP BND column0838 63
 UP BND column0839 64
 UP BND column0840 65
 UP BND column0841 66
 UP BND column0842 67
 UP BND column0843 68
 UP BND column0844 69
 UP BND column0845 70
 UP BND column0846 71
 UP BND column0847 72
 UP BND column0848 73
 UP BND column0849 74
 UP BND column0850 75
 UP BND column0851 76
 UP BND column0852 77
 UP BND column0853 78
 UP BND column0854 79
 UP BND column0855 80
 UP BND column0856 81
 UP BND column0857 82
 UP BND column0858 83
 UP BND column0859 84
 UP BND column0860 85
 UP BND column0861 86
 UP BND column0862 87
 UP BND column0863 88
 UP BND column0864 89
 UP BND column0865 90
 UP BND column0866 91
 UP BND column0867 92
 UP BND column0868 93
 UP BND column0869 94
 UP BND column0870 95
 UP BND column0871 96
 UP BND column0872 97
 UP BND column0873 1
 UP BND column0874 2
 UP BND column0875 3
 UP BND column0876 4
 UP BND column0877 5
 UP BND column0878 6
 UP BND column0879 7
 UP BND column0880 8
 UP BND column0881 9
 UP BND column0882 10
 UP BND column0883 11
 UP BND column0884 12
 UP BND column0885 13
 UP BND column0886 14
 UP BND column0887 15
 UP BND column0888 16
 UP BND column0889 17
 UP BND column0890 18
 UP BND column0891 19
 UP BND column0892 20
 UP BND column0893 21
 UP BND column0894 22
 UP BND column0895 23
 UP BND column0896 24
 UP BND column0897 25
 UP BND column0898 26
 UP BND column0899 27
 UP BND column0900 28
 UP BND column0901 29
 UP BND column0902 30
 UP BND column0903 31
 UP BND column0904 32
 UP BND column0905 33
 UP BND column0906 34
 UP BND column0907 35
 UP BND column0908 36
 UP BND column0909 37
 UP BND column0910 38
 UP BND column0911 39
 UP BND column0912 40
 UP BND column0913 41
 UP BND column0914 42
 UP BND column0915 43
 UP BND column0916 44
 UP BND column0917 45
 UP BND column0918 46
 UP BND column0919 47
 UP BND column0920 48
 UP BND column0921 49
 UP BND column0922 50
 UP BND column0923 51
 UP BND column0924 52
 UP BND column0925 53
 UP BND column0926 54
 UP BND column0927 55
 UP BND column0928 56
 UP BND column0929 57
 UP BND column0930 58
 UP BND column0931 59
 UP BND column0932 60
 UP BND column0933 61
 UP BND column0934 62
 UP BND column0935 63
 UP BND column0936 64
 UP BND column0937 65
 UP BND column0938 66
 UP BND column0939 67
 UP BND column0940 68
 UP BND column0941 69
 UP BND column0942 70
 UP BND column0943 71
 UP BND column0944 72
 UP BND column0945 73
 UP BND column0946 74
 UP BND column0947 75
 UP BND column0948 76
 UP BND column0949 77
 UP BND column0950 78
 UP BND column0951 79
 UP BND column0952 80
 UP BND column0953 81
 UP BND column0954 82
 UP BND column0955 83
 UP BND column0956 84
 UP BND column0957 85
 UP BND column0958 86
 UP BND column0959 87
 UP BND column0960 88
 UP BND column0961 89
 UP BND column0962 90
 UP BND column0963 91
 UP BND column0964 92
 UP BND column0965 93
 UP BND column0966 94
 UP BND column0967 95
 UP BND column0968 96
 UP BND column0969 97
 UP BND column0970 1
 UP BND column0971 2
 UP BND column0972 3
 UP BND column0973 4
 UP BND column0974 5
 UP BND column0975 6
 UP BND column0976 7
 UP BND column0977 8
 UP BND column0978 9
 UP BND column0979 10
 UP BND column0980 11
 UP BND column0981 12
 UP BND column0982 13
 UP BND column0983 14
 UP BND column0984 15
 UP BND column0985 16
 UP BND column0986 17
 UP BND column0987 18
 UP BND column0988 19
 UP BND column0989 20
 UP BND column0990 21
 UP BND column0991 22
 UP BND column0992 23
 UP BND column0993 24
 UP BND column0994 25
 UP BND column0995 26
 UP BND column0996 27
 UP BND column0997 28
 UP BND column0998 29
 UP BND column0999 30
ENDATA
